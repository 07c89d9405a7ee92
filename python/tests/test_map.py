"""A replica as a dictionary."""

from __future__ import annotations

import pytest

from ginelm import Map, Replica


def test_a_map_is_a_dictionary_of_sets() -> None:
    basket = Map(Replica(1))
    basket["milk"] = b"2"
    basket[b"bread"] = "1"
    assert basket["milk"] == {b"2"} and "milk" in basket and b"milk" in basket and 3 not in basket
    assert len(basket) == 2 and list(basket) == basket.keys() == [b"bread", b"milk"]
    assert basket.items() == [(b"bread", {b"1"}), (b"milk", {b"2"})]
    assert repr(basket) == "Map({b'bread': {b'1'}, b'milk': {b'2'}})"
    del basket["milk"]
    with pytest.raises(KeyError):
        del basket["milk"]
    with pytest.raises(KeyError):
        basket["milk"]
    assert basket.get("milk") == set()
    assert basket.changes() == [b"bread"] and basket.changes() == []
    basket.discard("milk")
    basket.clear()
    assert len(basket) == 0


def test_fields_are_a_dictionary_of_their_own() -> None:
    shop = Map(Replica(1))
    milk = shop.fields("milk")
    milk["price"] = "1.20"
    assert "milk" in shop and shop["milk"] == set() and shop.get("milk") == set()
    assert milk["price"] == {b"1.20"} and "price" in milk and "weight" not in milk and len(milk) == 1
    assert list(milk) == milk.keys() == [b"price"] and milk.items() == [(b"price", {b"1.20"})]
    assert repr(milk) == "Fields({b'price': {b'1.20'}})"
    with pytest.raises(KeyError):
        milk["weight"]
    with pytest.raises(KeyError):
        del milk["weight"]
    del milk["price"]
    assert "milk" not in shop and len(milk) == 0


def test_concurrent_writes_stand_side_by_side() -> None:
    one, two = Map(Replica(1)), Map(Replica(2))
    one["k"], two["k"] = "1", "2"
    for letter in one.replica.flush():
        two.replica.take(letter.data)
    assert two["k"] == {b"1", b"2"}
    two["k"] = "3"
    assert two["k"] == {b"3"}
