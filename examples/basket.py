"""Two baskets of one household, by the Python package: what crates/basket does in Rattle, with the same output."""

from ginelm import Map, Outcome, Replica


def show(name: str, basket: Map) -> None:
    """Prints each thing with its numbers: more than one, where devices wrote without knowing of each other."""
    things = [b" ".join([thing, *sorted(numbers)]) for thing, numbers in basket.items()]
    print(f"{name}:", b" ".join(things).decode())


def synchronise(asker: Replica, answerer: Replica) -> bool:
    """Brings what the answerer has seen to the asker, letter by letter. Answers whether it ended well."""
    _, letter = asker.ask(answerer.name)
    waiting = [letter]
    while waiting:
        (answer,) = answerer.take(waiting.pop().data).letters
        taken = asker.take(answer.data)
        waiting.extend(taken.letters)
    return taken.outcome is Outcome.DONE


phone, laptop = Map(Replica(1)), Map(Replica(2))
phone["apples"] = "3"
phone.replica.flush()  # this message is lost
laptop["apples"] = "5"
laptop["bread"] = "1"
laptop["milk"] = "2"
(letter,) = laptop.replica.flush()
phone.replica.take(letter.data)
phone.replica.take(letter.data)  # and this one comes twice
del phone["milk"]
show("phone", phone)
show("laptop", laptop)
print("synchronised:", "true" if synchronise(laptop.replica, phone.replica) else "false")
show("phone", phone)
show("laptop", laptop)
