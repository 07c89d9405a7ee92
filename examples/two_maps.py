from ginelm import Map, Replica

phone, laptop = Map(Replica(1)), Map(Replica(2))
phone["milk"], laptop["bread"] = b"2", b"1"
letters = [phone.replica.ask(2)[1]]
while letters:
    letter = letters.pop()
    to = phone if letter.to == 1 else laptop
    letters += to.replica.take(letter.data).letters
print(phone.keys())
