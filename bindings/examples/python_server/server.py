"""A GraphQL server over HTTP that validates by vorxindak and executes by graphql-core.

    python3 server.py [PORT]       then POST {"query": "{ greeting(name: \\"Ada\\") }"} to it
"""
import json
import sys
from http.server import BaseHTTPRequestHandler, ThreadingHTTPServer

import graphql
from vorxindak import Schema

SDL = "type Query { greeting(name: String!): String }"


class Root:
    def greeting(self, info, name):
        return f"Hello, {name}"


validated = Schema(SDL)
executed = graphql.build_schema(SDL)


def answer(request):
    """The response to a request, which is an object with `query` and maybe `variables`."""
    query, variables = request["query"], request.get("variables") or {}
    errors = validated.validate_variables(query, variables)
    if errors:
        located = [{"message": it.message, "locations": [at._asdict() for at in it.locations]} for it in errors]
        return {"errors": located}
    result = graphql.execute(executed, graphql.parse(query), Root(), variable_values=variables)
    return result.formatted


class Handler(BaseHTTPRequestHandler):
    def do_POST(self):
        request = json.loads(self.rfile.read(int(self.headers["Content-Length"])))
        body = json.dumps(answer(request)).encode()
        self.send_response(200)
        self.send_header("Content-Type", "application/json")
        self.send_header("Content-Length", str(len(body)))
        self.end_headers()
        self.wfile.write(body)

    def log_message(self, *_):
        pass


if __name__ == "__main__":
    port = int(sys.argv[1]) if len(sys.argv) > 1 else 4000
    with ThreadingHTTPServer(("127.0.0.1", port), Handler) as server:
        print(f"http://127.0.0.1:{server.server_port}", flush=True)
        server.serve_forever()
