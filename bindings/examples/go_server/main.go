// The server answers GraphQL requests over HTTP. It validates by vorxindak before it executes.
package main

import (
	"encoding/json"
	"log"
	"net/http"
	"sync"

	"vorxindak"
)

const sdl = "type Query { greeting: String }"

// A request, as clients send it.
type request struct {
	Query     string          `json:"query"`
	Variables json.RawMessage `json:"variables"`
}

type response struct {
	Data   any               `json:"data,omitempty"`
	Errors []vorxindak.Error `json:"errors,omitempty"`
}

// The handler has a schema for each request at a time, all of which share one in memory.
type handler struct {
	schemas sync.Pool
}

func newHandler() (*handler, error) {
	first, err := vorxindak.Open(sdl)
	if err != nil {
		return nil, err
	}
	var one sync.Mutex
	return &handler{sync.Pool{New: func() any {
		one.Lock()
		defer one.Unlock()
		schema, err := first.Share()
		if err != nil {
			return nil
		}
		return schema
	}}}, nil
}

func (h *handler) ServeHTTP(w http.ResponseWriter, r *http.Request) {
	var asked request
	if err := json.NewDecoder(r.Body).Decode(&asked); err != nil {
		http.Error(w, err.Error(), http.StatusBadRequest)
		return
	}
	schema, _ := h.schemas.Get().(*vorxindak.Schema)
	if schema == nil {
		http.Error(w, vorxindak.ErrOutOfMemory.Error(), http.StatusServiceUnavailable)
		return
	}
	defer h.schemas.Put(schema)
	variables := string(asked.Variables)
	if variables == "" || variables == "null" {
		variables = "{}"
	}
	found, err := schema.ValidateVariables(asked.Query, variables, vorxindak.Options{})
	if err != nil {
		http.Error(w, err.Error(), http.StatusServiceUnavailable)
		return
	}
	answer := response{Errors: found}
	if len(found) == 0 {
		answer.Data = execute(asked.Query)
	}
	w.Header().Set("Content-Type", "application/json")
	json.NewEncoder(w).Encode(answer)
}

// Stands for the executor of a server, which gets valid documents alone.
func execute(string) any {
	return map[string]string{"greeting": "hello"}
}

func main() {
	handler, err := newHandler()
	if err != nil {
		log.Fatal(err)
	}
	log.Fatal(http.ListenAndServe("127.0.0.1:4000", handler))
}
