#!/usr/bin/env python3
"""Puts rows at one node of a server, and prints them as another node has them: examples/sales.py [PUT_AT GET_AT]"""
import sys
from pathlib import Path

sys.path.append(str(Path(__file__).resolve().parent.parent / "clients" / "python"))

import felzoren

put_at, get_at = sys.argv[1:] or ["127.0.0.1:42000", "127.0.0.1:42001"]
version = felzoren.connect(put_at).put("sales", [{"shop": "Bern", "sold": 3}, {"shop": "Zürich", "sold": None}]).version
# That node may learn of the upload a moment later.
rows = felzoren.connect(get_at).get("sales", version, at_least=version).to_pylist()
print(*rows[-2:], sep="\n")
