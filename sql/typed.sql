-- The rules of examples/station by a schema that is typed for them, for bench/database to compare with: tables for what the
-- station has, keys and CHECKs where they say a rule, triggers where they cannot. A rule that changes is a schema that changes,
-- and only moves of trains go through the door here; sql/schema.sql enters any edit under any book.
PRAGMA journal_mode = WAL;
BEGIN IMMEDIATE;

CREATE TABLE platform (
    station TEXT    NOT NULL,
    id      INTEGER NOT NULL,
    is_long INTEGER NOT NULL CHECK (is_long IN (0, 1)),
    PRIMARY KEY (station, id)
) WITHOUT ROWID;

CREATE TABLE slot (
    station TEXT    NOT NULL,
    id      INTEGER NOT NULL,
    PRIMARY KEY (station, id)
) WITHOUT ROWID;

-- rule 4: one platform and one slot
CREATE TABLE berth (
    station  TEXT    NOT NULL,
    id       INTEGER NOT NULL,
    platform INTEGER NOT NULL,
    slot     INTEGER NOT NULL,
    closed   INTEGER NOT NULL CHECK (closed IN (0, 1)),
    PRIMARY KEY (station, id),
    FOREIGN KEY (station, platform) REFERENCES platform (station, id),
    FOREIGN KEY (station, slot) REFERENCES slot (station, id)
) WITHOUT ROWID;

CREATE TABLE train (
    station TEXT    NOT NULL,
    id      INTEGER NOT NULL,
    is_long INTEGER NOT NULL CHECK (is_long IN (0, 1)),
    PRIMARY KEY (station, id)
) WITHOUT ROWID;

-- rules 0 and 1 by the foreign keys, 2 by UNIQUE, 3 by the primary key; 7, placed, is that a train has a row here
CREATE TABLE stands_at (
    station TEXT    NOT NULL,
    train   INTEGER NOT NULL,
    berth   INTEGER NOT NULL,
    PRIMARY KEY (station, train),
    UNIQUE (station, berth),
    FOREIGN KEY (station, train) REFERENCES train (station, id),
    FOREIGN KEY (station, berth) REFERENCES berth (station, id)
) WITHOUT ROWID;

CREATE TABLE crew (
    station TEXT    NOT NULL,
    id      INTEGER NOT NULL,
    PRIMARY KEY (station, id)
) WITHOUT ROWID;

CREATE TABLE serves (
    station TEXT    NOT NULL,
    berth   INTEGER NOT NULL,
    crew    INTEGER NOT NULL,
    PRIMARY KEY (station, berth, crew),
    FOREIGN KEY (station, berth) REFERENCES berth (station, id),
    FOREIGN KEY (station, crew) REFERENCES crew (station, id)
) WITHOUT ROWID;

-- rule 8: both ways, since a pair is kept once
CREATE TABLE connects_to (
    station TEXT    NOT NULL,
    first   INTEGER NOT NULL,
    second  INTEGER NOT NULL CHECK (first < second),
    PRIMARY KEY (station, first, second),
    FOREIGN KEY (station, first) REFERENCES train (station, id),
    FOREIGN KEY (station, second) REFERENCES train (station, id)
) WITHOUT ROWID;

CREATE TABLE log (
    station  TEXT    NOT NULL,
    sequence INTEGER NOT NULL,
    train    INTEGER NOT NULL,
    berth    INTEGER, -- NULL: it stands nowhere
    at       TEXT    NOT NULL,
    who      TEXT    NOT NULL,
    PRIMARY KEY (station, sequence)
) WITHOUT ROWID;

-- rules 5, 6 and 9, from the side of the train
CREATE TRIGGER stands_at_insert BEFORE INSERT ON stands_at
BEGIN
    SELECT RAISE(ABORT, 'nothing stands at a closed berth')
    FROM berth WHERE station = NEW.station AND id = NEW.berth AND closed;
    SELECT RAISE(ABORT, 'a long train stands at long platforms only')
    FROM train JOIN berth ON berth.station = NEW.station AND berth.id = NEW.berth
               JOIN platform ON platform.station = NEW.station AND platform.id = berth.platform
    WHERE train.station = NEW.station AND train.id = NEW.train AND train.is_long AND NOT platform.is_long;
    SELECT RAISE(ABORT, 'a berth with a train is served by a crew')
    WHERE NOT EXISTS (SELECT 1 FROM serves WHERE station = NEW.station AND berth = NEW.berth);
END;

CREATE TRIGGER stands_at_update BEFORE UPDATE ON stands_at
BEGIN
    SELECT RAISE(ABORT, 'a train moves by leaving its berth and taking another');
END;

-- and from the other sides
CREATE TRIGGER berth_update BEFORE UPDATE ON berth
WHEN EXISTS (SELECT 1 FROM stands_at WHERE station = OLD.station AND berth = OLD.id)
BEGIN
    SELECT RAISE(ABORT, 'a berth with a train stays as it is');
END;

CREATE TRIGGER platform_update BEFORE UPDATE ON platform
WHEN OLD.is_long AND NOT NEW.is_long
BEGIN
    SELECT RAISE(ABORT, 'a long train stands at long platforms only')
    FROM berth JOIN stands_at ON stands_at.station = OLD.station AND stands_at.berth = berth.id
               JOIN train ON train.station = OLD.station AND train.id = stands_at.train
    WHERE berth.station = OLD.station AND berth.platform = OLD.id AND train.is_long;
END;

CREATE TRIGGER train_update BEFORE UPDATE ON train
WHEN NEW.is_long AND NOT OLD.is_long AND EXISTS (SELECT 1 FROM stands_at WHERE station = OLD.station AND train = OLD.id)
BEGIN
    SELECT RAISE(ABORT, 'a train with a berth stays as it is');
END;

CREATE TRIGGER serves_delete BEFORE DELETE ON serves
WHEN EXISTS (SELECT 1 FROM stands_at WHERE station = OLD.station AND berth = OLD.berth)
     AND NOT EXISTS (SELECT 1 FROM serves WHERE station = OLD.station AND berth = OLD.berth AND crew <> OLD.crew)
BEGIN
    SELECT RAISE(ABORT, 'a berth with a train is served by a crew');
END;

CREATE TRIGGER serves_update BEFORE UPDATE ON serves
BEGIN
    SELECT RAISE(ABORT, 'a crew is taken away and another put there');
END;

-- The door: a train leaves the berth that it has and takes another, or none, in one transaction with the log's row.
CREATE VIEW moves AS SELECT station, sequence, train, berth, at, who FROM log;

CREATE TRIGGER moves_insert INSTEAD OF INSERT ON moves
BEGIN
    DELETE FROM stands_at WHERE station = NEW.station AND train = NEW.train;
    INSERT INTO stands_at (station, train, berth) SELECT NEW.station, NEW.train, NEW.berth WHERE NEW.berth IS NOT NULL;
    INSERT INTO log (station, sequence, train, berth, at, who)
    VALUES (NEW.station, 1 + coalesce((SELECT max(sequence) FROM log WHERE station = NEW.station), 0),
            NEW.train, NEW.berth, strftime('%Y-%m-%d %H:%M:%f', 'now'), NEW.who);
END;

COMMIT;
