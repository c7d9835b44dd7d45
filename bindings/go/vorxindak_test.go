package vorxindak

import (
	"encoding/json"
	"errors"
	"fmt"
	"reflect"
	"strings"
	"sync"
	"testing"
)

const sdl = "type Query { greeting(name: String!): String }"

func unknown(name string) []Error {
	return []Error{{Message: fmt.Sprintf("Unknown field %q on type \"Query\"", name), Locations: []Location{{1, 3}}}}
}

func open(t *testing.T, texts ...string) *Schema {
	t.Helper()
	schema, err := Open(texts...)
	if err != nil {
		t.Fatal(err)
	}
	t.Cleanup(schema.Close)
	return schema
}

func check(t *testing.T, found []Error, err error, wanted []Error) {
	t.Helper()
	if err != nil || !reflect.DeepEqual(found, wanted) {
		t.Errorf("found %v, %v and not %v", found, err, wanted)
	}
}

func TestErrors(t *testing.T) {
	schema := open(t, sdl)
	found, err := schema.Validate(`{ greeting(name: "Ada") }`, Options{})
	check(t, found, err, nil)
	found, err = schema.Validate("{ nam }", Options{})
	check(t, found, err, unknown("nam"))
}

func TestSyntaxErrors(t *testing.T) {
	schema := open(t, sdl)
	for query, at := range map[string]Location{"{ greeting(": {1, 12}, "{ a }\n# \xff": {2, 3}} {
		found, err := schema.Validate(query, Options{})
		if err != nil || len(found) != 1 || found[0].Locations[0] != at {
			t.Errorf("%q: %v, %v", query, found, err)
		}
	}
	if found, err := schema.Validate("", Options{}); err != nil || len(found) != 1 {
		t.Errorf("%v, %v", found, err)
	}
}

func TestOptionsAndVariables(t *testing.T) {
	schema := open(t, sdl)
	query := "{ __schema { queryType { name } } }"
	found, err := schema.Validate(query, Options{})
	check(t, found, err, nil)
	if found, err = schema.Validate(query, Options{NoIntrospection: true}); err != nil || len(found) != 1 {
		t.Errorf("%v, %v", found, err)
	}
	for limit, count := range map[int]int{-1: 3, 0: 3, 1: 1, 2: 2, 4: 3} {
		if found, err = schema.Validate("{ a b c }", Options{MaxErrors: limit}); err != nil || len(found) != count {
			t.Errorf("%d: %v, %v", limit, found, err)
		}
	}
	query = "query($name: String!) { greeting(name: $name) }"
	for values, count := range map[string]int{`{"name": "Ada"}`: 0, "{}": 1, "[]": 1, "": 1} {
		if found, err = schema.ValidateVariables(query, values, Options{}); err != nil || len(found) != count {
			t.Errorf("%q: %v, %v", values, found, err)
		}
	}
}

func TestMessages(t *testing.T) {
	schema := open(t, "type Query { find(by: Filter): Int } input Filter { name: Int }")
	key := "\"\\/é\u2028😀\x7f"
	for i := rune(0); i < ' '; i++ {
		key += string(i)
	}
	values, err := json.Marshal(map[string]map[string]int{"by": {key: 1}})
	if err != nil {
		t.Fatal(err)
	}
	found, err := schema.ValidateVariables("query($by: Filter) { find(by: $by) }", string(values), Options{})
	wanted := `Variable "$by" got invalid value. In field "` + key + `": Unknown field.`
	check(t, found, err, []Error{{Message: wanted, Locations: []Location{{1, 7}}}})
}

func TestLocations(t *testing.T) {
	schema := open(t, sdl)
	query := "query A { greeting(name: \"Ada\") }"
	found, err := schema.Validate(query+"\n  "+query, Options{})
	wanted := []Error{{Message: "There can only be one operation named A", Locations: []Location{{1, 1}, {2, 3}}}}
	check(t, found, err, wanted)
}

func TestSchemas(t *testing.T) {
	_, err := Open("type Query { a: Int }", "type A { b: B }")
	var faulty *SchemaError
	if !errors.As(err, &faulty) || faulty.Errors[0].Path != "1" {
		t.Error(err)
	}
	if _, err = Open(""); !errors.As(err, &faulty) {
		t.Error(err)
	}
	schema := open(t, "type Query { a: A }", "type A { b: Int }")
	found, err := schema.Validate("{ a { b } }", Options{})
	check(t, found, err, nil)
	schema.Close()
	if _, err = schema.Validate("{ a }", Options{}); err != ErrClosed {
		t.Error(err)
	}
}

func TestDialects(t *testing.T) {
	for dialect, count := range map[Dialect]int{October2021: 1, Juniper: 0} {
		schema, err := OpenIn(dialect, "type Query { a: Int } type Subscription { a: Int b: Int }")
		if err != nil {
			t.Fatal(err)
		}
		found, err := schema.Validate("subscription { a b }", Options{})
		if err != nil || len(found) != count {
			t.Errorf("%v: %v, %v", dialect, found, err)
		}
		schema.Close()
	}
}

func TestLongReports(t *testing.T) {
	schema := open(t, sdl)
	var names []string
	for i := 0; i < 1000; i++ {
		names = append(names, fmt.Sprint("field", i))
	}
	found, err := schema.Validate("{ "+strings.Join(names, " ")+" }", Options{})
	if err != nil || len(found) != len(names) {
		t.Fatal(len(found), err)
	}
	for i, name := range names {
		if found[i].Message != unknown(name)[0].Message {
			t.Error(found[i].Message)
		}
	}
}

func TestGoroutines(t *testing.T) {
	schema := open(t, sdl)
	var all sync.WaitGroup
	for i := 0; i < 8; i++ {
		own, err := schema.Share()
		if err != nil {
			t.Fatal(err)
		}
		all.Add(1)
		go func(name string) {
			defer all.Done()
			defer own.Close()
			for j := 0; j < 200; j++ {
				found, err := own.Validate("{ "+name+" }", Options{})
				check(t, found, err, unknown(name))
			}
		}(fmt.Sprint("field", i))
	}
	schema.Close()
	all.Wait()
}
