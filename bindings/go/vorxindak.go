// Package vorxindak validates GraphQL documents by the proved library.
package vorxindak

/*
#cgo pkg-config: vorxindak
#include <stdlib.h>
#include <vorxindak.h>
*/
import "C"

import (
	"bytes"
	"errors"
	"fmt"
	"runtime"
	"unsafe"
)

// ErrClosed is returned of a schema that was closed.
var ErrClosed = errors.New("vorxindak: the schema is closed")

// ErrOutOfMemory is returned where the library ran out of memory, and nothing is known.
var ErrOutOfMemory = errors.New("vorxindak: out of memory")

// A Location is a place of a text. Line and column count from 1, the column in characters.
type Location struct {
	Line   int `json:"line"`
	Column int `json:"column"`
}

// An Error says what is wrong, and where. Path is the number of the text for faults of a schema.
type Error struct {
	Message   string     `json:"message"`
	Locations []Location `json:"locations"`
	Path      string     `json:"path,omitempty"`
}

// A SchemaError has the faults of texts that are no schema.
type SchemaError struct {
	Errors []Error
}

func (e *SchemaError) Error() string {
	if len(e.Errors) == 0 {
		return "vorxindak: no schema"
	}
	return fmt.Sprintf("vorxindak: %s (%d faults)", e.Errors[0].Message, len(e.Errors))
}

// A Dialect says by which rules documents are judged.
type Dialect uint32

const (
	// October2021 has those of the specification of October 2021.
	October2021 Dialect = 0
	// Juniper has those of juniper.
	Juniper Dialect = C.VORXINDAK_JUNIPER
)

// Options says what documents may ask for.
type Options struct {
	// Fields __schema and __type are errors.
	NoIntrospection bool
	// How many errors of a document are reported at most: 1,000 for 0, and all for a negative number. One with a long
	// message counts as several: one, and one more for each 4,096 bytes of its message.
	MaxErrors int
}

func (o Options) limit() C.size_t {
	switch {
	case o.MaxErrors == 0:
		return 1000
	case o.MaxErrors < 0:
		return 0
	default:
		return C.size_t(o.MaxErrors)
	}
}

func (o Options) flags() C.uint32_t {
	if o.NoIntrospection {
		return C.VORXINDAK_NO_INTROSPECTION
	}
	return 0
}

// A Schema validates documents, for one goroutine at a time. Share makes one for another goroutine.
type Schema struct {
	// It lies in memory of C, since the library keeps a pointer in it.
	handle *C.vorxindak
	// Room for reports, which is used again.
	room []byte
}

// Open reads a schema: type definitions, the JSON result of an introspection query, or several texts of both.
func Open(texts ...string) (*Schema, error) {
	return OpenIn(October2021, texts...)
}

// OpenIn is Open with the dialect by which documents are judged.
func OpenIn(dialect Dialect, texts ...string) (*Schema, error) {
	joined := make([][]byte, len(texts))
	for i, text := range texts {
		joined[i] = []byte(text)
	}
	text := bytes.Join(joined, []byte{0})
	schema, err := closed()
	if err != nil {
		return nil, err
	}
	status := C.vorxindak_open(schema.handle, pointer(text), C.size_t(len(text)), C.uint32_t(dialect))
	if status == C.VORXINDAK_VALID {
		return schema, nil
	}
	defer schema.Close()
	if status == C.VORXINDAK_OUT_OF_MEMORY {
		return nil, ErrOutOfMemory
	}
	faults, err := schema.report()
	if err != nil {
		return nil, err
	}
	return nil, &SchemaError{faults}
}

// Validate returns the errors of a document in ascending order, none if and only if it is valid. A text that is not a
// document has its syntax error.
func (s *Schema) Validate(query string, options Options) ([]Error, error) {
	if s.handle == nil {
		return nil, ErrClosed
	}
	text := []byte(query)
	status := C.vorxindak_validate(s.handle, pointer(text), C.size_t(len(text)), options.limit(), options.flags())
	return s.errors(status)
}

// ValidateVariables returns the errors of a document, or if it has none those of the values of its variables, which are
// a JSON object.
func (s *Schema) ValidateVariables(query, values string, options Options) ([]Error, error) {
	if s.handle == nil {
		return nil, ErrClosed
	}
	text, given := []byte(query), []byte(values)
	status := C.vorxindak_validate_variables(s.handle, pointer(text), C.size_t(len(text)), pointer(given),
		C.size_t(len(given)), options.limit(), options.flags())
	return s.errors(status)
}

// Share returns one more of the same schema, for another goroutine. The schema is in memory once.
func (s *Schema) Share() (*Schema, error) {
	if s.handle == nil {
		return nil, ErrClosed
	}
	other, err := closed()
	if err != nil {
		return nil, err
	}
	if C.vorxindak_share(s.handle, other.handle) != C.VORXINDAK_VALID {
		other.Close()
		return nil, ErrOutOfMemory
	}
	return other, nil
}

// Close lets go of the schema. It may be called again.
func (s *Schema) Close() {
	if s.handle != nil {
		C.vorxindak_close(s.handle)
		C.free(unsafe.Pointer(s.handle))
		s.handle = nil
		runtime.SetFinalizer(s, nil)
	}
}

// Version returns the version of the library.
func Version() string {
	number := uint32(C.vorxindak_version())
	return fmt.Sprintf("%d.%d.%d", number/1_000_000, number/1_000%1_000, number%1_000)
}

func closed() (*Schema, error) {
	handle := (*C.vorxindak)(C.calloc(1, C.sizeof_vorxindak))
	if handle == nil {
		return nil, ErrOutOfMemory
	}
	schema := &Schema{handle: handle}
	runtime.SetFinalizer(schema, (*Schema).Close)
	return schema, nil
}

func (s *Schema) errors(status C.uint32_t) ([]Error, error) {
	defer runtime.KeepAlive(s)
	switch status {
	case C.VORXINDAK_VALID:
		return nil, nil
	case C.VORXINDAK_OUT_OF_MEMORY:
		return nil, ErrOutOfMemory
	}
	return s.report()
}

// The last report.
func (s *Schema) report() ([]Error, error) {
	if s.room == nil {
		s.room = make([]byte, 4096)
	}
	var needed C.size_t
	status := C.vorxindak_report(s.handle, pointer(s.room), C.size_t(len(s.room)), &needed)
	if status == C.VORXINDAK_TOO_SMALL {
		s.room = make([]byte, needed)
		status = C.vorxindak_report(s.handle, pointer(s.room), C.size_t(len(s.room)), &needed)
	}
	if status != C.VORXINDAK_VALID {
		return nil, ErrClosed
	}
	return readReport(s.room[:needed])
}

// A pointer to the bytes, which is not nil where there are none either.
func pointer(text []byte) *C.uint8_t {
	if len(text) == 0 {
		text = []byte{0}
	}
	return (*C.uint8_t)(unsafe.Pointer(&text[0]))
}
