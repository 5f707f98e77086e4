-- `placed` is a column that the edit's own steps keep right, as on the sheet. Rules 0, 1 and 3 by the one column `berth`, 2 by
-- UNIQUE; 5, 6, 7 and 9 are foreign keys that are checked at the end of the transaction: rules may be broken between steps.
CREATE TABLE agreement (placed INTEGER, stands INTEGER, PRIMARY KEY (placed, stands)) WITHOUT ROWID;
INSERT INTO agreement VALUES (0, 0), (1, 1);

CREATE TABLE train (
    id         INTEGER PRIMARY KEY,
    is_long    INTEGER NOT NULL CHECK (is_long IN (0, 1)),
    berth      INTEGER UNIQUE,
    placed     INTEGER NOT NULL,
    stands     INTEGER NOT NULL GENERATED ALWAYS AS (berth IS NOT NULL) STORED,
    usable     INTEGER NOT NULL GENERATED ALWAYS AS (1) STORED,
    needs_long INTEGER GENERATED ALWAYS AS (CASE WHEN is_long THEN 1 END) STORED,
    FOREIGN KEY (berth, usable) REFERENCES berth (id, usable) DEFERRABLE INITIALLY DEFERRED,
    FOREIGN KEY (berth, needs_long) REFERENCES berth (id, is_long) DEFERRABLE INITIALLY DEFERRED,
    FOREIGN KEY (placed, stands) REFERENCES agreement DEFERRABLE INITIALLY DEFERRED
);
