package vorxindak

import "testing"

// A report on one error, whose message is spelled so.
func spelled(message string) string {
	return `[{"message": ` + message + `, "locations": [{"line": 1, "column": 2}]}]`
}

func TestReports(t *testing.T) {
	at := []Location{{1, 2}}
	laidOut := `[
  {
    "message": "a",
    "locations": [
      {
        "line": 1,
        "column": 2
      }
    ]
  }
]
`
	for text, wanted := range map[string][]Error{
		"[]":        {},
		" [\t]\r\n": {},
		laidOut:     {{Message: "a", Locations: at}},
		// Strings.
		spelled(`""`):                         {{Message: "", Locations: at}},
		spelled(`"\"\\\/"`):                   {{Message: `"\/`, Locations: at}},
		spelled(`"\b\f\n\r\t"`):               {{Message: "\b\f\n\r\t", Locations: at}},
		spelled(`"\u0000\u001F\u00e9\uFFFD"`): {{Message: "\x00\x1fé\uFFFD", Locations: at}},
		spelled(`"\ud83d\ude00"`):             {{Message: "😀", Locations: at}},
		spelled(`"é \u2028 😀 \\"`):            {{Message: "é \u2028 😀 \\", Locations: at}},
		// Lists, and members in another order.
		`[{"message":"a","locations":[]},
		  {"locations":[],"path":"0","message":"b"}]`: {{"a", []Location{}, ""}, {"b", []Location{}, "0"}},
		`[{"message":"a","locations":[{"line":12,"column":345},
		                              {"column":6,"line":7}]}]`: {{"a", []Location{{12, 345}, {7, 6}}, ""}},
	} {
		found, err := readReport([]byte(text))
		check(t, found, err, wanted)
	}
}

func TestTextsThatAreNoReports(t *testing.T) {
	good := spelled(`"a"`)
	for i := 0; i < len(good); i++ {
		if found, err := readReport([]byte(good[:i])); err == nil {
			t.Errorf("%q: %v", good[:i], found)
		}
	}
	for _, text := range []string{
		"{}", "null", "[]]", "[],", "[,]", "[1]", "[{}]", "[{},]", good + good,
		`[{"message":"a"}]`, `[{"locations":[]}]`, `[{"message":1,"locations":[]}]`, `[{"message":"a","locations":{}}]`,
		`[{"message":"a","locations":[],}]`, `[{"message":"a" "locations":[]}]`,
		`[{"message":"a","locations":[],"other":"b"}]`,
		`[{"message":"a","locations":[{"line":1}]}]`, `[{"message":"a","locations":[{"line":0,"column":1}]}]`,
		`[{"message":"a","locations":[{"line":-1,"column":1}]}]`, `[{"message":"a","locations":[{"line":1.5,"column":1}]}]`,
		`[{"message":"a","locations":[{"line":99999999999999999999,"column":1}]}]`,
		spelled("\"\n\""), spelled("\"\xff\""), spelled(`"\x"`), spelled(`"\"`), spelled(`"\u12"`), spelled(`"\u12g4"`),
		spelled(`"\ud83d"`), spelled(`"\ude00\ud83d"`), spelled(`"\ud83d\u0041"`), spelled(`"\ud83dxude00"`),
	} {
		if found, err := readReport([]byte(text)); err == nil {
			t.Errorf("%q: %v", text, found)
		}
	}
}
