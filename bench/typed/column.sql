-- `placed` is a generated column, so that rule 7 cannot be broken and two of the edit's steps fall away. Rules 0, 1 and 3 by the
-- one column `berth`, 2 by UNIQUE, 5, 6 and 9 by foreign keys.
CREATE TABLE train (
    id         INTEGER PRIMARY KEY,
    is_long    INTEGER NOT NULL CHECK (is_long IN (0, 1)),
    berth      INTEGER UNIQUE,
    placed     INTEGER NOT NULL GENERATED ALWAYS AS (berth IS NOT NULL) VIRTUAL,
    usable     INTEGER NOT NULL GENERATED ALWAYS AS (1) STORED,
    needs_long INTEGER GENERATED ALWAYS AS (CASE WHEN is_long THEN 1 END) STORED,
    FOREIGN KEY (berth, usable) REFERENCES berth (id, usable),
    FOREIGN KEY (berth, needs_long) REFERENCES berth (id, is_long)
);
