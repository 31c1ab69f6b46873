-- Parts; a comment isn't read.
CREATE TABLE `Thing` (`Size` SHORT, `Thing` CHAR(8) NOT NULL, `Note` CHAR(16) PRIMARY KEY `Thing`);

INSERT INTO Thing VALUES ('bolt', -5, 'a; b'), -- not one statement behind the other
    ('nut', 3, 'it''s -- so');
UPDATE Thing SET Note = 'C:\new\table' WHERE Thing = 'nut'
