"""python3 test.py: requests that the server validates and executes. Needs graphql-core."""
import json
import threading
import unittest
import urllib.request
from http.server import ThreadingHTTPServer

import server


class Tests(unittest.TestCase):
    def setUp(self):
        self.server = ThreadingHTTPServer(("127.0.0.1", 0), server.Handler)
        threading.Thread(target=self.server.serve_forever, daemon=True).start()

    def tearDown(self):
        self.server.shutdown()
        self.server.server_close()

    def post(self, **request):
        url = f"http://127.0.0.1:{self.server.server_port}"
        with urllib.request.urlopen(url, json.dumps(request).encode()) as response:
            return json.load(response)

    def test_executes(self):
        self.assertEqual(self.post(query='{ greeting(name: "Ada") }'), {"data": {"greeting": "Hello, Ada"}})
        query = "query($name: String!) { greeting(name: $name) }"
        self.assertEqual(self.post(query=query, variables={"name": "Bo"}), {"data": {"greeting": "Hello, Bo"}})

    def test_refuses(self):
        wanted = {"message": 'Unknown field "nam" on type "Query"', "locations": [{"line": 1, "column": 3}]}
        self.assertEqual(self.post(query="{ nam }"), {"errors": [wanted]})
        query = "query($name: String!) { greeting(name: $name) }"
        self.assertEqual(len(self.post(query=query)["errors"]), 1)


if __name__ == "__main__":
    unittest.main()
