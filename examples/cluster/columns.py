#!/usr/bin/env python3
"""Turns a stream of messages into a table with a row for each message, on the workers of a Dask cluster, and prints the table's size and the sum of its
first column:

  columns.py SET TYPE STREAM FIELD..     a FIELD is a name, or names with dots between them, as invoice.address
  WORKERS=8 SIZE=100000000 columns.py .. with eight processes in place of four, and parts of about 100 MB in place of 16 MB

The file is cut at the borders of frames. Each worker reads its part of the file, so the workers need the same path.
"""
import mmap
import os
import sys

import dask
import dask.dataframe
import pandas
from dask.distributed import Client, LocalCluster
from mabristu import Pool, Refused


def length_at(data, at):
    """The length that a frame begins with, and where its message begins."""
    length = shift = 0
    while True:
        byte = data[at]
        length |= (byte & 127) << shift
        at, shift = at + 1, shift + 7
        if byte < 128:
            return length, at


def borders(path, size):
    """Where the parts of a stream begin, each with at least this many bytes but the last, and where the stream ends. Only the lengths are read. A stream that
    ends inside a frame gets a last part that does so too: its worker reports that."""
    end = os.path.getsize(path)
    found, at = [0], 0
    if end == 0:
        return found
    with open(path, "rb") as stream, mmap.mmap(stream.fileno(), 0, access=mmap.ACCESS_READ) as data:
        try:
            while at < end:
                if at - found[-1] >= size:
                    found.append(at)
                length, begin = length_at(data, at)
                at = begin + length
        except IndexError:
            pass
    return [*found, end]


def columns(set_bytes, type_name, path, begin, end, fields):
    """A part of the stream as a table. A refused message is an error, with the byte of the file at which its frame begins."""
    message_type = Pool(set_bytes)[type_name]
    with open(path, "rb") as stream:
        stream.seek(begin)
        data = stream.read(end - begin)
    try:
        rows = [[message_type.find(frame.data, *field.split(".")) for field in fields] for frame in message_type.frames(data)]
    except Refused as refused:
        raise ValueError(f"at {begin + refused.at}: {refused}") from None
    return pandas.DataFrame(rows, columns=fields)


def table(set_bytes, type_name, path, fields, size):
    """The whole stream as a table of Dask: no part of it is read before it is asked for."""
    cuts = borders(path, size)
    part = dask.delayed(columns)
    parts = [part(set_bytes, type_name, path, begin, end, fields) for begin, end in zip(cuts, cuts[1:])]
    empty = columns(set_bytes, type_name, os.devnull, 0, 0, fields)
    return dask.dataframe.from_delayed(parts or [dask.delayed(empty)], meta=empty, verify_meta=False)


def main(words):
    if len(words) < 4:
        print(__doc__, file=sys.stderr)
        return 2
    set_path, type_name, path, *fields = words
    with open(set_path, "rb") as it:
        set_bytes = it.read()
    workers = int(os.environ.get("WORKERS", 4))
    with LocalCluster(n_workers=workers, threads_per_worker=1, dashboard_address=None) as cluster, Client(cluster):
        rows = table(set_bytes, type_name, os.path.abspath(path), fields, int(os.environ.get("SIZE", 1 << 24)))
        count, total = dask.compute(rows[fields[0]].size, rows[fields[0]].sum())
        print(f"rows {count} sum {total} parts {rows.npartitions}")
    return 0


if __name__ == "__main__":
    sys.exit(main(sys.argv[1:]))
