-- T1 and T2 live in H1 and H2 and list each other's room. N is last in the order and lists H1 and V.
INSERT INTO room VALUES ('H1', 0), ('H2', 0), ('V', 0);
INSERT INTO person VALUES ('T2', 'Tom Tao', 'key00000000000t2', 'H2', 0);
INSERT INTO person VALUES ('T1', 'Tim Tan', 'key00000000000t1', 'H1', 0);
INSERT INTO person VALUES ('N', 'Ned Nye', 'key000000000000n', NULL, 0);
INSERT INTO round VALUES (1, 1, 1, 'drawn');
INSERT INTO choice VALUES ('T1', 0, 'H2'), ('N', 1, 'V'), ('N', 0, 'H1'), ('T2', 0, 'H1');
INSERT INTO word VALUES ('T1', '0000000000000001'), ('T2', '0000000000000002');
INSERT INTO word VALUES ('N', '0000000000000003');
INSERT INTO list VALUES ('r-1', 'rooms', x'726f6f6d0a56', 1);
