-- title: Who did what
-- What each person did in the period, by the sign in front of the key. A receipt's key is its delivery and line: nobody's. A key of a timer or of a list may look like a sign.
SELECT who, word, count(*) AS acts, sum(CASE WHEN word IN ('MOVE', 'PICK', 'UNPICK') THEN CAST(e AS INTEGER) END) AS units,
       date(min(a.day) + 2440587.5) AS first_day, date(max(a.day) + 2440587.5) AS last_day, count(DISTINCT a.day) AS days
FROM act a, asked WHERE a.day BETWEEN first AND last GROUP BY who, word ORDER BY who, acts DESC, word;
