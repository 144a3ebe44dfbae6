from time import process_time

from hypothesis import given
from hypothesis import strategies as st

from fmm.feed.ordering import Position, Waiting

TIMES = st.lists(st.tuples(st.sampled_from("ab"), st.integers(0, 60)), unique=True, max_size=40)


def arrivals(times, wait):
    """Positions in an order in which each comes at most `wait` after the newest of its vehicle."""
    found, newest = [], {}
    for vehicle, time in times:
        if time > newest.get(vehicle, -1) - wait:
            found.append((vehicle, time))
            newest[vehicle] = max(time, newest.get(vehicle, -1))
    return found


@given(TIMES, st.integers(1, 20))
def test_late_positions_are_put_in_order(times, wait):
    waiting, written = Waiting(wait), []
    taken = arrivals(times, wait)
    for count, (vehicle, time) in enumerate(taken):
        waiting.add(Position(time, vehicle, 0, 0, 0))
        written += waiting.due({vehicle}, now=0)
    written += waiting.all()
    assert sorted((p.vehicle, p.time) for p in written) == sorted(taken)
    for name in "ab":
        mine = [p.time for p in written if p.vehicle == name]
        assert mine == sorted(mine)
    assert waiting.count == 0 and waiting.next_due() == float("inf")


def test_a_position_waits_no_longer_than_told():
    waiting = Waiting(5)
    waiting.add(Position(100, "a", 0, 0, 1000))
    assert waiting.due({"a"}, 1004.9) == [] and waiting.next_due() == 1005
    assert [p.time for p in waiting.due(set(), 1005)] == [100]


def test_earlier_positions_go_with_one_that_is_due():
    waiting = Waiting(5)
    waiting.add(Position(100, "a", 0, 0, 1000))
    waiting.add(Position(98, "a", 0, 0, 1003))
    assert [p.time for p in waiting.due({"a"}, 1005)] == [98, 100]
    assert waiting.due({"a"}, 2000) == []


def test_positions_of_all_vehicles_come_in_the_order_of_their_times():
    """So that `streams --idle` ends no drive because another vehicle was read first."""
    waiting = Waiting(5)
    for vehicle, time in (("a", 100), ("a", 200), ("b", 103), ("a", 300), ("b", 203), ("b", 303)):
        waiting.add(Position(time, vehicle, 0, 0, 1000))
    assert [(p.time, p.vehicle) for p in waiting.due({"a", "b"}, 1000)] == [(100, "a"), (103, "b"), (200, "a"), (203, "b")]
    assert [(p.time, p.vehicle) for p in waiting.all()] == [(300, "a"), (303, "b")]


def test_a_long_wait_costs_no_more_for_each_position():
    """A day of one vehicle that comes late: the work for a position may not grow with those that wait."""
    waiting, count = Waiting(1e9), 20_000
    begin = process_time()
    for at in range(count):
        assert not waiting.has("a", float(at))
        waiting.add(Position(float(at), "a", 0, 0, float(at)))
    assert waiting.has("a", 5.0) and not waiting.has("a", 5.5)
    assert waiting.due({"a"}, 0.0) == [] and len(waiting.due(set(), 2e9)) == count
    assert process_time() - begin < 3  # it was a minute
