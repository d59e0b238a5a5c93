"""SQLAlchemy: its core, or with a fifth word `mapper` its mapper, with the defaults of both."""

import sys

import sqlalchemy as sql
from sqlalchemy.orm import Session, declarative_base

from steps import DATABASE, PASSWORD, PORT, USER, step

engine = sql.create_engine(sql.engine.URL.create("mysql+pymysql", USER, PASSWORD, "127.0.0.1", PORT, DATABASE), future=True)
Base = declarative_base()


class Note(Base):
    __tablename__ = "note"
    id = sql.Column(sql.BigInteger, primary_key=True, autoincrement=False)
    title = sql.Column(sql.LargeBinary)
    body = sql.Column(sql.LargeBinary)
    stars = sql.Column(sql.BigInteger)


class Tag(Base):
    __tablename__ = "tag"
    id = sql.Column(sql.BigInteger, primary_key=True, autoincrement=False)
    name = sql.Column(sql.LargeBinary)
    uses = sql.Column(sql.BigInteger)


NOTE, TAG = Note.__table__.c, Tag.__table__.c
NEW = {"id": 50, "title": b"Jam", "body": b"it's \\ sweet", "stars": 3}


def one(statement):
    with engine.connect() as connection:
        return list(connection.execute(statement).one())


def write(statement):
    with engine.begin() as connection:
        connection.execute(statement)


def roll_back():
    with engine.connect() as connection:
        connection.execute(sql.update(Note.__table__).where(NOTE.id == 1).values(stars=100))
        connection.rollback()
        return connection.execute(sql.select(NOTE.stars).where(NOTE.id == 1)).one()


def page():
    with engine.connect() as connection:
        return connection.execute(sql.select(TAG.name).order_by(TAG.name).limit(2).offset(1)).scalars()


def by_core():
    step("connect", lambda: engine.connect().close())
    step("read", lambda: one(sql.select(NOTE.title, NOTE.body, NOTE.stars).where(NOTE.id == 1)))
    step("create", lambda: write(sql.insert(Note.__table__).values(**NEW)))
    step("created", lambda: one(sql.select(NOTE.title, NOTE.body, NOTE.stars).where(NOTE.id == 50)))
    step("change", lambda: write(sql.update(Note.__table__).where(NOTE.id == 2).values(stars=9)))
    step("delete", lambda: write(sql.delete(Note.__table__).where(NOTE.id == 3)))
    step("page", page)
    step("count", lambda: one(sql.select(sql.func.count()).select_from(Tag.__table__)))
    step("all", lambda: one(sql.select(sql.func.count()).select_from(Note.__table__).where(NOTE.stars >= 1)))
    step("roll back", roll_back)


def in_session(action, ends=True):
    with Session(engine) as session:
        shown = action(session)
        if ends:
            session.commit()
        return shown


def read(session, key):
    note = session.get(Note, key)
    return note.title, note.body, note.stars


def change(session):
    session.get(Note, 2).stars = 9


def take_back(session):
    session.get(Note, 1).stars = 100
    session.flush()
    session.rollback()
    return [session.get(Note, 1).stars]


def by_mapper():
    step("connect", lambda: in_session(lambda session: session.connection() and None))
    step("read", lambda: in_session(lambda session: read(session, 1)))
    step("create", lambda: in_session(lambda session: session.add(Note(**NEW))))
    step("created", lambda: in_session(lambda session: read(session, 50)))
    step("change", lambda: in_session(change))
    step("delete", lambda: in_session(lambda session: session.delete(session.get(Note, 3))))
    step("page", lambda: in_session(lambda session: [it.name for it in session.query(Tag).order_by(Tag.name).limit(2).offset(1)]))
    step("count", lambda: in_session(lambda session: [session.query(Tag).count()]))
    step("all", lambda: in_session(lambda session: [session.query(Note).filter(Note.stars >= 1).count()]))
    step("roll back", lambda: in_session(take_back))


by_mapper() if sys.argv[5:] == ["mapper"] else by_core()
