"""peewee: a model over each table, with peewee's defaults."""

import peewee

from steps import DATABASE, PASSWORD, PORT, USER, step

database = peewee.MySQLDatabase(DATABASE, host="127.0.0.1", port=PORT, user=USER, password=PASSWORD)


class Note(peewee.Model):
    id = peewee.BigIntegerField(primary_key=True)
    title = peewee.CharField(80)
    body = peewee.CharField(255, null=True)
    stars = peewee.BigIntegerField()

    class Meta:
        table_name = "note"


class Tag(peewee.Model):
    id = peewee.BigIntegerField(primary_key=True)
    name = peewee.CharField(32)
    uses = peewee.BigIntegerField()

    class Meta:
        table_name = "tag"


database.bind([Note, Tag])


def read(key):
    note = Note.get_by_id(key)
    return note.title, note.body, note.stars


def change():
    note = Note.get_by_id(2)
    note.stars = 9
    note.save()


def roll_back():
    with database.atomic() as transaction:
        Note.update(stars=100).where(Note.id == 1).execute()
        transaction.rollback()
    return [Note.get_by_id(1).stars]


step("connect", lambda: database.connect() and None)
step("read", lambda: read(1))
step("create", lambda: Note.create(id=50, title="Jam", body="it's \\ sweet", stars=3) and None)
step("created", lambda: read(50))
step("change", change)
step("delete", lambda: Note.delete().where(Note.id == 3).execute() and None)
step("page", lambda: [it.name for it in Tag.select().order_by(Tag.name).limit(2).offset(1)])
step("count", lambda: [Tag.select().count()])
step("all", lambda: [Note.select().where(Note.stars >= 1).count()])
step("roll back", roll_back)
