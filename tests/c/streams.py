#!/usr/bin/python3
"""Compares tables that GDAL reads, as Arrow streams, and looks for planted differences.

usage: streams.py LIBRARY [--rows 20000]

Makes two copies of one table, one of them with other cells in five rows, as CSV, SQLite, GeoPackage
and GeoJSON, and reads them by GDAL's streams of record batches: structs of texts, numbers, dates
and bytes. The rows that differ must be the planted ones. A table is compared with itself too.
Batches of the two sides end at different rows. Needs Debian's python3-gdal, and so its own python3.
Ends with `N passed, M failed`.
"""
import argparse
import ctypes
import pathlib
import sys
import tempfile

from osgeo import gdal, ogr

import arrow

FORMS = {"CSV": ("csv", ["AUTODETECT_TYPE=YES"]), "SQLite": ("sqlite", ["LIST_ALL_TABLES=YES"]),
         "GPKG": ("gpkg", []), "GeoJSON": ("geojson", [])}
FIELDS = (("name", ogr.OFTString), ("amount", ogr.OFTInteger), ("big", ogr.OFTInteger64),
          ("share", ogr.OFTReal), ("day", ogr.OFTDate), ("moment", ogr.OFTDateTime))


def cells(row, is_changed):
    """Returns the cells of a row: every eleventh name is null."""
    kind = row // 7 % 4 if is_changed else None
    return (None if row % 11 == 0 and kind != 0 else f"name {row % 1000}{'!' if kind == 0 else ''}",
            row % 97 + (kind == 1), (1 << 40) + row + (kind == 2), row % 8 / 4 + (kind == 3),
            f"2024/01/{row % 28 + 1:02d}", f"2024/01/{row % 28 + 1:02d} 12:00:{row % 60:02d}")


def write_table(path, driver, rows, changed):
    """Writes a table, with changed cells in some rows."""
    source = ogr.GetDriverByName(driver).CreateDataSource(str(path))
    geometry = ogr.wkbPoint if driver in ("GPKG", "GeoJSON") else ogr.wkbNone
    layer = source.CreateLayer("t", geom_type=geometry)
    for name, kind in FIELDS:
        layer.CreateField(ogr.FieldDefn(name, kind))
    layer.StartTransaction()
    for row in range(rows):
        feature = ogr.Feature(layer.GetLayerDefn())
        for field, cell in enumerate(cells(row, row in changed)):
            if cell is None:
                feature.SetFieldNull(field)
            else:
                feature.SetField(field, cell)
        if layer.GetGeomType() == ogr.wkbPoint:
            feature.SetGeometry(ogr.CreateGeometryFromWkt(f"POINT ({row % 180} {row % 90})"))
        layer.CreateFeature(feature)
    layer.CommitTransaction()


class Table:
    """The batches of a table, read one after another, of at most so many rows each."""

    def __init__(self, path, options, rows):
        self.source = gdal.OpenEx(str(path), gdal.OF_VECTOR, open_options=options)
        layer = self.source.GetLayerByName("t") or self.source.GetLayer(0)
        self.stream = layer.GetArrowStream([f"MAX_FEATURES_IN_BATCH={rows}"])
        self.schema = self.stream.GetSchema()
        self.batch, self.column, self.first = None, None, 0
        self.advance(0)

    def advance(self, rows):
        """Passes over rows, and over the end of a batch."""
        self.first += rows
        while self.column is None or self.first == len(self.column):
            self.batch, self.first = self.stream.GetNextRecordBatch(), 0
            if self.batch is None:
                self.column = None
                return
            # the structs live as long as the objects of GDAL do
            self.column = arrow.Column(arrow.ArrowSchema.from_address(self.schema._getPtr()),
                                       arrow.ArrowArray.from_address(self.batch._getPtr()))

    def left(self):
        """Returns how many rows of the batch are left."""
        return 0 if self.column is None else len(self.column) - self.first


def different_rows(library, left, right):
    """Returns the places of rows that differ, and how many rows were compared."""
    found, done = [], 0
    while rows := min(left.left(), right.left()):
        out = (ctypes.c_uint8 * ((rows + 7) // 8))()
        status = library.dunkelva_equal_rows(
            left.column.schema, left.column.array, left.first, right.column.schema,
            right.column.array, right.first, rows, arrow.FLOATS_BY_BITS, out, len(out), None)
        if status:
            return library.dunkelva_status_text(status), done
        found += [done + row for row in range(rows) if not out[row // 8] >> row % 8 & 1]
        done += rows
        left.advance(rows)
        right.advance(rows)
    return found, done


def formats(schema):
    """Returns the formats of the fields of a schema."""
    fields = [schema.children[field].contents for field in range(schema.n_children)]
    return " ".join(field.format.decode() for field in fields)


def main():
    """Compares the tables of all drivers, and returns the status."""
    asked = argparse.ArgumentParser(description=__doc__.split("\n", maxsplit=1)[0])
    asked.add_argument("library")
    asked.add_argument("--rows", type=int, default=20_000)
    chosen = asked.parse_args()
    gdal.UseExceptions()
    gdal.SetConfigOption("OGR_SQLITE_SYNCHRONOUS", "OFF")
    library, rows = arrow.load(chosen.library), chosen.rows
    planted = [7, 14, 21, rows // 2 // 7 * 7, rows - 1 - (rows - 1) % 7]
    failed = tried = 0
    with tempfile.TemporaryDirectory(prefix="streams-") as room:
        for driver, (ending, options) in FORMS.items():
            paths = [pathlib.Path(room) / f"{side}.{ending}" for side in ("old", "new")]
            for path, changed in zip(paths, ((), planted)):
                write_table(path, driver, rows, set(changed))
            for right, wanted in ((paths[1], planted), (paths[0], [])):
                old, new = Table(paths[0], options, 7000), Table(right, options, 5000)
                types = formats(old.column.schema)
                got = different_rows(library, old, new)
                tried += 1
                if got != (wanted, rows):
                    failed += 1
                    print(f"{driver} ({types}): {got}, and not {wanted} of {rows}")
            print(f"streams: {driver}: {types}")
    print(f"{tried - failed} passed, {failed} failed")
    return failed > 0


if __name__ == "__main__":
    sys.exit(main())
