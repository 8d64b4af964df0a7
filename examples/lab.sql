-- The database of examples/sleep.design, with made-up rows that are always the same; `examples/lab` makes examples/lab.db of it.

CREATE TABLE ward (
  code    TEXT PRIMARY KEY NOT NULL,
  name    TEXT NOT NULL,
  head_id UUID REFERENCES staff
);
CREATE TABLE staff (
  id            UUID PRIMARY KEY NOT NULL,
  role          TEXT NOT NULL,
  name          TEXT NOT NULL,
  supervisor_id UUID REFERENCES staff
);
CREATE TABLE subject (
  id           UUID PRIMARY KEY NOT NULL,
  hospital_no  TEXT NOT NULL UNIQUE,
  name         TEXT NOT NULL,
  born         DATE,
  ward_code    TEXT REFERENCES ward,
  physician_id UUID REFERENCES staff
);
CREATE TABLE recording (
  id            INTEGER PRIMARY KEY,
  subject_id    UUID NOT NULL REFERENCES subject,
  technician_id UUID REFERENCES staff,
  started_at    TIMESTAMP NOT NULL,
  minutes       INTEGER NOT NULL
);
CREATE TABLE channel (
  recording_id INTEGER NOT NULL REFERENCES recording,
  label        TEXT NOT NULL,
  PRIMARY KEY (recording_id, label)
);
CREATE TABLE event (
  id            INTEGER PRIMARY KEY,
  recording_id  INTEGER NOT NULL,
  channel_label TEXT NOT NULL,
  kind          TEXT NOT NULL,
  onset_ms      INTEGER NOT NULL,
  duration_s    INTEGER,
  scorer_id     UUID REFERENCES staff,
  FOREIGN KEY (recording_id, channel_label) REFERENCES channel
);
CREATE TABLE scoring (
  recording_id INTEGER NOT NULL REFERENCES recording,
  scorer_id    UUID NOT NULL REFERENCES staff,
  PRIMARY KEY (recording_id, scorer_id)
);
CREATE INDEX staff_of_supervisor ON staff (supervisor_id);
CREATE INDEX subject_of_ward ON subject (ward_code);
CREATE INDEX subject_of_physician ON subject (physician_id);
CREATE INDEX recording_of_subject ON recording (subject_id);
CREATE INDEX recording_of_technician ON recording (technician_id);
CREATE INDEX event_of_recording ON event (recording_id);
CREATE INDEX event_of_scorer ON event (scorer_id);

-- numbers from 1 on, and a UUID for each member of staff and each subject
CREATE TEMP TABLE number AS
  WITH RECURSIVE n (i) AS (SELECT 1 UNION ALL SELECT i + 1 FROM n WHERE i < 64)
  SELECT i,
    printf('%08x-57af-4000-8000-%012x', i * 2654435761 % 4294967296, i) AS staff,
    printf('%08x-50b1-4000-8000-%012x', i * 2246822519 % 4294967296, i) AS subject
  FROM n;

-- staff: a head, 8 physicians, 10 technicians, 11 scorers; everybody but the head has a supervisor
INSERT INTO staff
  SELECT n.staff,
    CASE WHEN n.i = 1 THEN 'head' WHEN n.i <= 9 THEN 'physician' WHEN n.i <= 19 THEN 'technician' ELSE 'scorer' END,
    substr('AdlerBauerClausDietzEbertFrickGrafeHuberIlligJungeKochaLangeMaierNollePaulsQuastRothaSeiflTraxlUlmerVogelWagnrXaverYorkeZellrAmmonBraunCasprDornaEnger', 5 * n.i - 4, 5),
    CASE WHEN n.i = 1 THEN NULL ELSE s.staff END
  FROM number AS n LEFT JOIN number AS s
    ON s.i = CASE WHEN n.i <= 9 THEN 1 WHEN n.i <= 19 THEN 2 + n.i % 2 ELSE 10 + n.i % 2 END
  WHERE n.i <= 30;

INSERT INTO ward
  SELECT code, name, n.staff
  FROM (SELECT 'W-NORD' AS code, 'North' AS name, 2 AS head UNION ALL SELECT 'W-OST', 'East', 3
    UNION ALL SELECT 'W-SUED', 'South', 4 UNION ALL SELECT 'W-WEST', 'West', 5)
  JOIN number AS n ON n.i = head;

INSERT INTO subject
  SELECT n.subject, printf('H-%d', 10000 + n.i), printf('Subject %d', n.i),
    date('1948-01-01', printf('+%d days', n.i * 587)),
    CASE WHEN n.i <= 11 THEN 'W-NORD' WHEN n.i <= 20 THEN 'W-WEST' WHEN n.i <= 28 THEN 'W-SUED' ELSE 'W-OST' END,
    p.staff
  FROM number AS n JOIN number AS p ON p.i = 2 + n.i * 5 % 8
  WHERE n.i <= 36;

-- every subject slept here once, 16 of them twice
INSERT INTO recording
  SELECT 50000 + row_number() OVER (ORDER BY night, n.i), n.subject, t.staff,
    printf('%s 22:%02d', date('2025-03-02', printf('+%d days', n.i / 2 + 20 * night)), n.i * 7 % 60),
    400 + n.i * 11 % 90
  FROM number AS n JOIN (SELECT 0 AS night UNION ALL SELECT 1) JOIN number AS t ON t.i = 10 + (n.i + 3 * night) % 10
  WHERE n.i <= 36 AND (night = 0 OR n.i BETWEEN 12 AND 22 OR n.i IN (1, 3, 5, 7, 9));

INSERT INTO channel
  SELECT r.id, c.label
  FROM recording AS r JOIN (SELECT 'C3' AS label UNION ALL SELECT 'C4' UNION ALL SELECT 'O1' UNION ALL SELECT 'EOG'
    UNION ALL SELECT 'EMG' UNION ALL SELECT 'Flow' UNION ALL SELECT 'SpO2' UNION ALL SELECT 'Leg') AS c;

INSERT INTO event (recording_id, channel_label, kind, onset_ms, duration_s, scorer_id)
  SELECT r.id,
    CASE n.i % 5 WHEN 0 THEN 'Leg' WHEN 1 THEN 'Flow' WHEN 2 THEN 'Flow' WHEN 3 THEN 'SpO2' ELSE 'C3' END,
    CASE n.i % 5 WHEN 0 THEN 'PLM' WHEN 1 THEN 'apnoea' WHEN 2 THEN 'hypopnoea' WHEN 3 THEN 'desaturation' ELSE 'arousal' END,
    n.i * 2411000 + r.id % 97 * 1009,
    CASE WHEN n.i % 5 = 4 THEN NULL ELSE 5 + (n.i * 13 + r.id) % 31 END,
    s.staff
  FROM recording AS r JOIN number AS n ON n.i <= 3 + r.id * 7 % 6 JOIN number AS s ON s.i = 20 + (r.id + n.i / 4) % 11
  ORDER BY r.id, n.i;

INSERT INTO scoring SELECT DISTINCT recording_id, scorer_id FROM event WHERE kind = 'desaturation';
