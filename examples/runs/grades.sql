-- Brings the office of rows.sql to version 2, with a grade and an imported list of grades that set nobody's grade.
UPDATE round SET version = 2; INSERT INTO grade VALUES ('N', 4);
INSERT INTO list VALUES ('g-1', 'grades', x'706572736f6e2c67726164650a', 0);
