#!/usr/bin/env python3
"""Answers `GET /paths/HOST` by Flask, from the tables of a desk's database: the same JSON as the desk.

    python3 bench/flask_paths.py DATABASE PORT

It serves with Flask's own server at a port of 127.0.0.1, one request at a time, until it is ended, over
one connection to the database, which no desk has open. Nobody's token is looked at.
"""
import json
import sqlite3
import sys

import flask

app = flask.Flask(__name__)
database = sqlite3.connect(sys.argv[1])

PATHS = """
    SELECT fabric, initiator, target, volume, lun FROM paths WHERE host = ?
    ORDER BY fabric, initiator, target, volume, lun
"""


def printed(wwn):
    return ":".join(wwn[start:start + 2] for start in range(0, 16, 2))


def shown(row):
    fabric, initiator, target, volume, lun = row
    return {
        "fabric": fabric,
        "initiator": printed(initiator),
        "lun": lun,
        "target": printed(target),
        "volume": volume,
    }


def answer(status, value):
    text = json.dumps(value, separators=(",", ":"))
    return flask.Response(text, status=status, mimetype="application/json")


@app.get("/paths/<host>")
def paths(host):
    known = database.execute("SELECT 1 FROM holders WHERE name = ? AND kind = 'host'", (host,))
    if known.fetchone() is None:
        return answer(404, {"code": 9, "error": "not-found"})
    rows = database.execute(PATHS, (host,))
    return answer(200, {"host": host, "paths": [shown(row) for row in rows]})


if __name__ == "__main__":
    app.run(host="127.0.0.1", port=int(sys.argv[2]), threaded=False)
