"""Calls from several threads at once, and the GIL."""
import threading
import time
from concurrent.futures import ThreadPoolExecutor

import pytest

import num_format
from num_format import Format, _native


def test_threads_share_formats():
    forms = [Format.locale("en"), Format(separator="_")]

    def work(seed):
        for number in range(seed * 10**12, seed * 10**12 + 3000):
            for form, expected in zip(forms, (f"{number:,}", f"{number:_}")):
                if num_format.format(number, form) != expected or num_format.parse(expected, form) != number:
                    return False
        return True

    with ThreadPoolExecutor(8) as pool:
        assert all(pool.map(work, range(8)))


def test_threads_work_on_columns():
    np = pytest.importorskip("numpy")
    columns = pytest.importorskip("num_format.columns")

    def work(seed):
        numbers = np.random.default_rng(seed).integers(-(2**62), 2**62, 50000)
        return bool((columns.parse_column(columns.format_column(numbers, "sv"), "sv") == numbers).all())

    with ThreadPoolExecutor(8) as pool:
        assert all(pool.map(work, range(16)))


def test_columns_release_the_gil():
    """Another thread goes on while one call for a column runs."""
    np = pytest.importorskip("numpy")
    pytest.importorskip("num_format.columns")
    numbers, lengths = np.full(10**7, 2**62), []
    given = Format()._bytes, _native.I64, -1, numbers.ctypes.data, numbers.nbytes

    def goes_on():
        """Whether this thread had a turn in the middle half of a call in another one."""
        times, turns = [], []

        def work():
            times.append(time.monotonic())
            lengths.append(_native.print_column_len(*given))
            times.append(time.monotonic())

        thread = threading.Thread(target=work)
        thread.start()
        while thread.is_alive():
            turns.append(time.monotonic())
            time.sleep(0.0005)
        thread.join()
        start, end = times
        quarter = (end - start) / 4
        return any(start + quarter < turn < end - quarter for turn in turns)

    # A busy processor may leave no turn to this thread.
    assert any(goes_on() for _ in range(20))
    assert set(lengths) == {len(numbers) * len(f"{2**62:,}")}
