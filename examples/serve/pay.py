#!/usr/bin/env python3
"""Pays, and asks again with the same key until there is an answer. usage: pay.py URL TOKEN_FILE KEY AMOUNT"""
import http.client
import json
import pathlib
import sys
import time
import urllib.error
import urllib.request


def pay(url, token, key, amount):
    """Returns the status of the answer, and its text."""
    request = urllib.request.Request(f"{url}/payments", json.dumps({"amount": amount}).encode(),
                                     {"Authorization": f"Bearer {token}", "Idempotency-Key": key})
    while True:
        wait = None
        try:
            with urllib.request.urlopen(request, timeout=300) as answer:
                return answer.status, answer.read().decode()
        except urllib.error.HTTPError as error:
            wait = error.headers["Retry-After"]
            if error.code < 500 and wait is None:
                return error.code, error.read().decode()
        except (OSError, http.client.HTTPException):
            pass  # no answer came
        time.sleep(int(wait or 1))


status, text = pay(sys.argv[1], pathlib.Path(sys.argv[2]).read_text().strip(), sys.argv[3], int(sys.argv[4]))
meanings = {200: ("paid", 0), 402: ("not paid", 1), 424: ("unclear, look at the terminal", 2)}
word, code = meanings.get(status, ("refused", 3))
print(f"{word}: {text.strip()}")
sys.exit(code)
