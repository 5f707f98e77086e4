-- Stations and their edits. Needs the extension sql/sqlite.c; run it once in a new database, in one transaction:
--
--   sqlite3 -bail stations.db ".load ./zamiathen_sqlite" ".read schema.sql"
--
-- A station is made by an INSERT into stations with the opening sheet as its sheet. Edits are entered by an INSERT into the
-- view edits (station, edit, who), and by nothing else: the sheet is what replaying the log on the opening sheet gives.
-- Every other write is refused, by RAISE(ABORT), since an OR clause of the client's statement changes what a
-- constraint does, and not what RAISE does.
PRAGMA journal_mode = WAL;
BEGIN IMMEDIATE;

-- The sheet comes last: an edit then changes a page or two of the row, and the others are left as they are. Without a row
-- number there is no second key by which OR REPLACE could drop another station, and no sqlite3_blob_open, whose writes pass by
-- CHECKs and triggers.
CREATE TABLE stations (
    name    TEXT NOT NULL PRIMARY KEY CHECK (typeof(name) = 'text' AND name <> ''),
    names   TEXT NOT NULL CHECK (typeof(names) = 'text'),
    book    BLOB NOT NULL,
    opening BLOB NOT NULL,
    sheet   BLOB NOT NULL,
    CHECK (zamiathen_keeps(sheet, book)),
    CHECK (zamiathen_book_words(names, book) IS NOT NULL) -- an error where the names are not a table of names
) WITHOUT ROWID;

CREATE TABLE log (
    station  TEXT    NOT NULL REFERENCES stations (name),
    sequence INTEGER NOT NULL, -- from 1 on
    edit     BLOB    NOT NULL,
    at       TEXT    NOT NULL, -- UTC
    who      TEXT    NOT NULL,
    PRIMARY KEY (station, sequence)
) WITHOUT ROWID;

-- The edit that is being entered: a row is here only while the trigger below works, and so the triggers of the tables know
-- its writes from a client's. No client sees one.
CREATE TABLE entering (
    station TEXT NOT NULL PRIMARY KEY,
    edit    BLOB NOT NULL,
    who     TEXT NOT NULL
) WITHOUT ROWID;

CREATE VIEW edits AS SELECT station, sequence, edit, at, who FROM log;

CREATE TRIGGER edits_insert INSTEAD OF INSERT ON edits
BEGIN
    SELECT RAISE(ABORT, 'sequence and at are given by the log') WHERE NEW.sequence IS NOT NULL OR NEW.at IS NOT NULL;
    INSERT INTO entering (station, edit, who) VALUES (NEW.station, NEW.edit, NEW.who);
END;

CREATE TRIGGER entering_before BEFORE INSERT ON entering
BEGIN
    SELECT RAISE(ABORT, 'there is no such station') WHERE NOT EXISTS (SELECT 1 FROM stations WHERE name = NEW.station);
    SELECT RAISE(ABORT, 'the edit is not a blob') WHERE typeof(NEW.edit) <> 'blob';
    SELECT RAISE(ABORT, 'who enters the edit is not said') WHERE typeof(NEW.who) <> 'text';
END;

-- One statement for the client, so one transaction: the sheet, the log's row, or neither.
CREATE TRIGGER entering_after AFTER INSERT ON entering
BEGIN
    UPDATE stations SET sheet = zamiathen_entered(sheet, book, NEW.edit, names) WHERE name = NEW.station;
    INSERT INTO log (station, sequence, edit, at, who)
    VALUES (NEW.station, 1 + coalesce((SELECT max(sequence) FROM log WHERE station = NEW.station), 0),
            NEW.edit, strftime('%Y-%m-%d %H:%M:%f', 'now'), NEW.who);
    DELETE FROM entering;
END;

-- So the opening sheet keeps the book, too.
CREATE TRIGGER stations_insert BEFORE INSERT ON stations
BEGIN
    SELECT RAISE(ABORT, 'there is such a station already') WHERE EXISTS (SELECT 1 FROM stations WHERE name = NEW.name);
    SELECT RAISE(ABORT, 'a new station has its opening sheet') WHERE NEW.sheet IS NOT NEW.opening;
END;

CREATE TRIGGER stations_update BEFORE UPDATE OF name, book, opening ON stations
BEGIN
    SELECT RAISE(ABORT, 'name, book and opening sheet of a station stay');
END;

CREATE TRIGGER stations_sheet BEFORE UPDATE OF sheet ON stations
WHEN NOT EXISTS (SELECT 1 FROM entering WHERE station = OLD.name)
BEGIN
    SELECT RAISE(ABORT, 'a sheet is changed by INSERT INTO edits');
END;

CREATE TRIGGER stations_delete BEFORE DELETE ON stations
BEGIN
    SELECT RAISE(ABORT, 'a station stays, and so does its log');
END;

CREATE TRIGGER log_insert BEFORE INSERT ON log
WHEN NOT EXISTS (SELECT 1 FROM entering WHERE station = NEW.station)
BEGIN
    SELECT RAISE(ABORT, 'the log is written by INSERT INTO edits');
END;

CREATE TRIGGER log_update BEFORE UPDATE ON log
BEGIN
    SELECT RAISE(ABORT, 'the log stays as it is');
END;

CREATE TRIGGER log_delete BEFORE DELETE ON log
BEGIN
    SELECT RAISE(ABORT, 'the log stays as it is');
END;

COMMIT;
