"""Workbooks for the trial, as spreadsheets write them, and such as nobody should be able to hurt the page with."""

import io
import zipfile

ODS = ('<office:document-content xmlns:office="urn:oasis:names:tc:opendocument:xmlns:office:1.0" '
       'xmlns:table="urn:oasis:names:tc:opendocument:xmlns:table:1.0" '
       'xmlns:text="urn:oasis:names:tc:opendocument:xmlns:text:1.0"><office:body><office:spreadsheet>'
       '<table:table table:name="Sheet1">{}</table:table></office:spreadsheet></office:body></office:document-content>')
TYPES = ('<Types xmlns="http://schemas.openxmlformats.org/package/2006/content-types">'
         '<Default Extension="rels" ContentType="application/vnd.openxmlformats-package.relationships+xml"/>'
         '<Default Extension="xml" ContentType="application/xml"/>'
         '<Override PartName="/xl/workbook.xml" ContentType='
         '"application/vnd.openxmlformats-officedocument.spreadsheetml.sheet.main+xml"/></Types>')
LAUGHS = ('<!DOCTYPE x [<!ENTITY a "aaaaaaaaaa">' + "".join(
    f'<!ENTITY {new} "{f"&{old};" * 10}">' for old, new in zip("abcdefgh", "bcdefghi")) + "]>")


def archive(parts):
    """An archive of these parts."""
    held = io.BytesIO()
    with zipfile.ZipFile(held, "w", zipfile.ZIP_DEFLATED) as made:
        for name, text in parts.items():
            made.writestr(name, text)
    return held.getvalue()


def xlsx(rows, formats=None):
    """A workbook of Excel, with the formats of some columns, and a second sheet."""
    import openpyxl  # pylint: disable=import-outside-toplevel
    book = openpyxl.Workbook()
    for row in rows:
        book.active.append(row)
    for column, kind in (formats or {}).items():
        for cell in book.active[column]:
            cell.number_format = kind
    book.create_sheet("Notes").append(["nothing of this"])
    held = io.BytesIO()
    book.save(held)
    return held.getvalue()


def cell_of(value):
    """A cell of LibreOffice: a number, nothing, a formula without a result as scripts write it, or a text."""
    if value is None:
        return "<table:table-cell/>"
    if str(value).startswith("="):
        return f'<table:table-cell table:formula="of:{value}"/>'
    if isinstance(value, int):
        return f'<table:table-cell office:value-type="float" office:value="{value}"><text:p>{value:,}</text:p></table:table-cell>'
    return f'<table:table-cell office:value-type="string"><text:p>{value}</text:p></table:table-cell>'


def ods(rows):
    """A workbook of LibreOffice, with the empty rows and columns that it writes behind."""
    lines = "".join(f"<table:table-row>{''.join(map(cell_of, row))}"
                    '<table:table-cell table:number-columns-repeated="1020"/></table:table-row>' for row in rows)
    rest = ('<table:table-row table:number-rows-repeated="1048000"><table:table-cell '
            'table:number-columns-repeated="1024"/></table:table-row>')
    return archive({"mimetype": "application/vnd.oasis.opendocument.spreadsheet", "content.xml": ODS.format(lines + rest)})


def hostile():
    """Workbooks that would take the memory or the time, each by its name."""
    wide = '<table:table-row><table:table-cell table:number-columns-repeated="99999999"><text:p>x</text:p></table:table-cell>'
    cell = "<table:table-cell><text:p>x</text:p></table:table-cell>"
    many = f'<table:table-row table:number-rows-repeated="99999999">{cell}</table:table-row>'
    parts = {"[Content_Types].xml": TYPES}
    return {
        "a part of 200 megabytes": archive({"content.xml": ODS.format(" " * 200_000_000)}),
        "90,000 rows": archive({"content.xml": ODS.format("<table:table-row><table:table-cell/></table:table-row>" * 90_000)}),
        "a cell that repeats": archive({"content.xml": ODS.format(wide + "</table:table-row>")}),
        "a row that repeats": archive({"content.xml": ODS.format(many)}),
        "entities in .ods": archive({"content.xml": LAUGHS + ODS.format("&i;")}),
        "entities in .xlsx": archive({**parts, "xl/workbook.xml": LAUGHS + "<workbook>&i;</workbook>"}),
        "elements within elements": archive({"content.xml": ODS.format("<a>" * 50_000 + "</a>" * 50_000)}),
        "many styles": archive({**parts, "xl/workbook.xml": "<workbook/>", "xl/styles.xml": f"<x>{'<xf/>' * 400_000}</x>"}),
        "2,000 parts": archive({**parts, **{f"p{number}": "" for number in range(2_000)}}),
        "no workbook": archive(parts),
        "an archive that is cut": archive(parts)[:-20],
        "nothing but zeros": b"PK\3\4" + bytes(5_000),
        "old Excel": b"\xd0\xcf\x11\xe0\xa1\xb1\x1a\xe1" + bytes(2_000),
    }
