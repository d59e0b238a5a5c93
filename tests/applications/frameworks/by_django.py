"""Django: a model over each table, with Django's defaults."""

import django
from django.conf import settings
from django.db import connection, models, transaction

from steps import DATABASE, PASSWORD, PORT, USER, step

PLACE = {"ENGINE": "django.db.backends.mysql", "HOST": "127.0.0.1", "PORT": PORT, "USER": USER, "PASSWORD": PASSWORD, "NAME": DATABASE}
settings.configure(DATABASES={"default": PLACE}, DEFAULT_AUTO_FIELD="django.db.models.BigAutoField", USE_TZ=False)
django.setup()


class Note(models.Model):
    id = models.PositiveBigIntegerField(primary_key=True)
    title = models.CharField(max_length=80)
    body = models.CharField(max_length=255, null=True)
    stars = models.BigIntegerField()

    class Meta:
        app_label, db_table = "notes", "note"


class Tag(models.Model):
    id = models.PositiveBigIntegerField(primary_key=True)
    name = models.CharField(max_length=32)
    uses = models.BigIntegerField()

    class Meta:
        app_label, db_table = "notes", "tag"


def change():
    note = Note.objects.get(id=2)
    note.stars = 9
    note.save()


def roll_back():
    try:
        with transaction.atomic():
            Note.objects.filter(id=1).update(stars=100)
            raise KeyError
    except KeyError:
        return [Note.objects.get(id=1).stars]


def read(key):
    note = Note.objects.get(id=key)
    return note.title, note.body, note.stars


step("connect", connection.ensure_connection)
step("read", lambda: read(1))
step("create", lambda: Note.objects.create(id=50, title="Jam", body="it's \\ sweet", stars=3) and None)
step("created", lambda: read(50))
step("change", change)
step("delete", lambda: Note.objects.filter(id=3).delete() and None)
step("page", lambda: [it.name for it in Tag.objects.order_by("name")[1:3]])
step("count", lambda: [Tag.objects.count()])
step("all", lambda: [Note.objects.filter(stars__gte=1).count()])
step("roll back", roll_back)
