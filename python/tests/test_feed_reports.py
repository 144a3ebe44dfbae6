import pytest

from fmm.feed.reports import Columns, HeaderMissing, Reader, Refused, Report


def report(form: str, *payloads: str, columns: str = "vehicle,longitude,latitude,time"):
    reader = Reader(form, Columns.of(columns))
    return [reader.report(payload.encode("utf-8", "surrogateescape")) for payload in payloads]


def test_an_object_keeps_ids_as_text():
    assert report("json", '{"vehicle": 7, "longitude": 9.5, "latitude": "54", "time": 1714982400}') == [
        Report("7", 9.5, 54.0, "1714982400")]
    assert report("json", '{"vehicle": "007", "longitude": 9, "latitude": 54, "time": "2024-05-06T08:00:00Z"}') == [
        Report("007", 9.0, 54.0, "2024-05-06T08:00:00Z")]


def test_a_dot_leads_into_an_object():
    found = report("json", '{"a": {"b": "x"}, "p": {"lon": 1, "lat": 2}}', columns="a.b,p.lon,p.lat")
    assert found == [Report("x", 1.0, 2.0, None)]


@pytest.mark.parametrize("payload, why", [
    ('{"vehicle": "a", "longitude": null, "latitude": 1, "time": 1}', "no longitude"),
    ('{"vehicle": "a", "longitude": true, "latitude": 1, "time": 1}', "no longitude"),
    ('{"vehicle": "", "longitude": 1, "latitude": 1, "time": 1}', "no vehicle"),
    ('{"vehicle": "a", "longitude": 1e999, "latitude": 1, "time": 1}', "1e999 is not a finite number"),
    ('{"vehicle": "a", "longitude": NaN, "latitude": 1, "time": 1}', "not JSON"),
    ('{"vehicle": "a", "longitude": "1_0", "latitude": 1, "time": 1}', "1_0 is not a finite number"),
    ('{"vehicle": "x\\n3999999999,y", "longitude": 1, "latitude": 1, "time": 1}', "control characters"),
    ('{"vehicle": "x\\u0000", "longitude": 1, "latitude": 1, "time": 1}', "control characters"),
    ('{"vehicle": "x\\ry", "longitude": 1, "latitude": 1, "time": 1}', "control characters"),
    ("[" * 100_000, "longer than"),
    ("[" * 60_000, "not JSON"),
    ("{", "not JSON"),
    ("[]", "no vehicle"),
    ('{"vehicle":"a","longitude":1,"longitude":2,"latitude":3,"time":4}', "a name stands twice in an object"),
    ("\udcff", "invalid UTF-8"),
])
def test_a_wrong_object_is_refused(payload, why):
    with pytest.raises(Refused, match=why):
        report("json", payload)


def test_a_table_is_read_by_its_header():
    header, row = "time,latitude,longitude,vehicle,speed", "1714982400,54,9,van 7,30"
    assert report("csv", header, row) == [None, Report("van 7", 9.0, 54.0, "1714982400")]


def test_a_later_header_counts_from_there_on():
    found = report("csv", "vehicle,longitude,latitude,time", "a,1,2,3", "latitude,longitude,vehicle,time", "2,1,a,4")
    assert found == [None, Report("a", 1.0, 2.0, "3"), None, Report("a", 1.0, 2.0, "4")]


def test_a_header_with_other_columns_is_followed_by_no_row():
    """A row with words in place of numbers is no header."""
    reader = Reader("csv", Columns())
    lines = ["vehicle,longitude,latitude,time", "a,1,2,3", "n/a,n/a,n/a,n/a", "a,1,2,4", "plate,lat,lon,when", "a,2,1,5",
             "vehicle,longitude,latitude,time", "a,1,2,6"]
    found = []
    for line in lines:
        try:
            found.append(reader.report(line.encode()))
        except Refused as why:
            found.append(str(why))
    other = "the last header has other columns: plate,lat,lon,when"
    assert found == [None, Report("a", 1.0, 2.0, "3"), "longitude n/a is not a finite number", Report("a", 1.0, 2.0, "4"),
                     other, other, None, Report("a", 1.0, 2.0, "6")]


def test_a_table_without_its_header_ends_the_feed():
    with pytest.raises(HeaderMissing, match="name its columns"):
        report("csv", "a,1,2,3")


@pytest.mark.parametrize("row, why", [
    ("a,9,43,54,31,5", "6 fields, and the header has 4"),
    ("a,9,43", "3 fields, and the header has 4"),
    ('a,9,43,"5', "a quoted field has no end"),
])
def test_a_wrong_record_is_refused(row, why):
    with pytest.raises(Refused, match=why):
        report("csv", "vehicle,longitude,latitude,time", row)


def test_half_a_row_is_no_row_without_a_time():
    with pytest.raises(Refused, match="3 fields; vehicle, x, y and time are wanted"):
        report("rows", "a,1,2,3", "a,1,2")


def test_an_id_with_control_characters_is_refused():
    for text in ("x\\r", "\\nx", "x\\u0000"):
        with pytest.raises(Refused, match="control characters"):
            report("json", '{"vehicle":"%s","longitude":1,"latitude":1,"time":5}' % text)


def test_rows_without_a_time_have_that_of_arrival():
    assert report("rows", "a,1,2", "a,1,2,3", "") == [Report("a", 1.0, 2.0, None), Report("a", 1.0, 2.0, "3"), None]
