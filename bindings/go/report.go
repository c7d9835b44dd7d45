package vorxindak

import (
	"bytes"
	"errors"
	"strconv"
	"strings"
	"unicode/utf16"
	"unicode/utf8"
)

var errReport = errors.New("vorxindak: a report can't be read")

// readReport returns the errors of a report. Since it is JSON of one form, encoding/json would take ten times as long.
func readReport(text []byte) ([]Error, error) {
	r := reader{rest: text}
	found := []Error{}
	r.list(func() { found = append(found, r.error()) })
	r.next()
	if r.failed || len(r.rest) > 0 || !utf8.Valid(text) {
		return nil, errReport
	}
	return found, nil
}

// A reader takes from the rest what it reads. Nothing is left after it has failed.
type reader struct {
	rest   []byte
	failed bool
}

func (r *reader) fail() {
	r.rest, r.failed = nil, true
}

// next returns the next byte that is not white space, and lets it stand; 0 at the end.
func (r *reader) next() byte {
	for i, each := range r.rest {
		if each != ' ' && each != '\n' && each != '\r' && each != '\t' {
			r.rest = r.rest[i:]
			return each
		}
	}
	r.rest = nil
	return 0
}

// takes says whether a byte stands next, and takes it.
func (r *reader) takes(wanted byte) bool {
	if r.next() != wanted {
		return false
	}
	r.rest = r.rest[1:]
	return true
}

func (r *reader) expect(wanted byte) {
	if !r.takes(wanted) {
		r.fail()
	}
}

func (r *reader) list(item func()) {
	r.expect('[')
	if !r.takes(']') {
		r.items(']', item)
	}
}

func (r *reader) object(member func(name []byte)) {
	r.expect('{')
	r.items('}', func() {
		name := r.quoted()
		r.expect(':')
		member(name)
	})
}

// items reads items with commas between them, and the bracket behind them.
func (r *reader) items(closes byte, item func()) {
	for item(); r.takes(','); item() {
	}
	r.expect(closes)
}

func (r *reader) error() (found Error) {
	hasMessage := false
	r.object(func(name []byte) {
		switch string(name) {
		case "message":
			found.Message, hasMessage = r.text(), true
		case "locations":
			found.Locations = r.locations()
		case "path":
			found.Path = r.text()
		default:
			r.fail()
		}
	})
	if !hasMessage || found.Locations == nil {
		r.fail()
	}
	return found
}

func (r *reader) locations() []Location {
	found := []Location{}
	r.list(func() { found = append(found, r.location()) })
	return found
}

// location reads a place, whose numbers count from 1.
func (r *reader) location() (found Location) {
	r.object(func(name []byte) {
		switch string(name) {
		case "line":
			found.Line = r.number()
		case "column":
			found.Column = r.number()
		default:
			r.fail()
		}
	})
	if found.Line == 0 || found.Column == 0 {
		r.fail()
	}
	return found
}

func (r *reader) number() int {
	r.next()
	length := 0
	for length < len(r.rest) && '0' <= r.rest[length] && r.rest[length] <= '9' {
		length++
	}
	number, err := strconv.Atoi(string(r.rest[:length]))
	if err != nil {
		r.fail()
		return 0
	}
	r.rest = r.rest[length:]
	return number
}

// text reads a string.
func (r *reader) text() string {
	left := r.quoted()
	at := bytes.IndexByte(left, '\\')
	if at < 0 {
		return string(left)
	}
	var text strings.Builder
	text.Grow(len(left))
	for ; at >= 0; at = bytes.IndexByte(left, '\\') {
		text.Write(left[:at])
		meant, length := escaped(left[at+1:])
		if length == 0 {
			r.fail()
			return ""
		}
		text.WriteRune(meant)
		left = left[at+1+length:]
	}
	text.Write(left)
	return text.String()
}

// quoted reads a string and returns what stands between its quotes, with its escapes as they are.
func (r *reader) quoted() []byte {
	r.expect('"')
	for i := 0; i < len(r.rest); i++ {
		switch each := r.rest[i]; {
		case each == '"':
			found := r.rest[:i]
			r.rest = r.rest[i+1:]
			return found
		case each == '\\':
			i++
		case each < ' ':
			r.fail()
		}
	}
	r.fail()
	return nil
}

// escaped returns the character that is meant after a backslash, and how many bytes spell it; 0 if none is meant.
func escaped(text []byte) (rune, int) {
	const letters, meant = `"\/bfnrt`, "\"\\/\b\f\n\r\t"
	if at := strings.IndexByte(letters, text[0]); at >= 0 {
		return rune(meant[at]), 1
	}
	first, ok := unit(text)
	if !ok {
		return 0, 0
	}
	if !utf16.IsSurrogate(first) {
		return first, 5
	}
	if len(text) < 7 || text[5] != '\\' {
		return 0, 0
	}
	second, _ := unit(text[6:])
	both := utf16.DecodeRune(first, second)
	if both == utf8.RuneError {
		return 0, 0
	}
	return both, 11
}

// unit returns the number that is meant after a backslash, if one is.
func unit(text []byte) (rune, bool) {
	if len(text) < 5 || text[0] != 'u' {
		return 0, false
	}
	number, err := strconv.ParseUint(string(text[1:5]), 16, 16)
	return rune(number), err == nil
}
