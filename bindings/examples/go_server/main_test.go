package main

import (
	"io"
	"net/http/httptest"
	"strings"
	"testing"
)

func TestRequests(t *testing.T) {
	handler, err := newHandler()
	if err != nil {
		t.Fatal(err)
	}
	server := httptest.NewServer(handler)
	defer server.Close()
	for asked, wanted := range map[string]string{
		`{"query": "{ greeting }"}`: `{"data":{"greeting":"hello"}}`,
		`{"query": "{ nam }"}`:      `{"errors":[{"message":"Unknown field \"nam\" on type \"Query\"","locations":[{"line":1,"column":3}]}]}`,
	} {
		for i := 0; i < 20; i++ {
			answer, err := server.Client().Post(server.URL, "application/json", strings.NewReader(asked))
			if err != nil {
				t.Fatal(err)
			}
			found, err := io.ReadAll(answer.Body)
			answer.Body.Close()
			if err != nil || strings.TrimSpace(string(found)) != wanted {
				t.Errorf("%s: %s, %v", asked, found, err)
			}
		}
	}
}
