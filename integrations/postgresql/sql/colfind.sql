-- Values, worked by hand for docs/example/letters.txt, whose letters are a, b, c, ch, e, h, m, r, s, u; the database has this table.
\pset tuples_only
\pset format unaligned
\pset null null
CREATE EXTENSION colfind;
-- strengths: letters alone, accents too, case too
SELECT strength, colfind('a résumé', 'resume', strength), colfind('A', 'a', strength), colfind('résumé', 'résumé', strength)
FROM generate_series(1, 3) AS strength;
SELECT colfind('a résumé', 'resume'), colfind('a-a', 'aa'), colfind('a-a', 'aa', weighting => 'shifted'), colfind('chA', 'h', 1);
-- NULL and nothing
SELECT colfind(NULL, 'a'), colfind('a', NULL), colfind('a', 'a', NULL), colfind('a', 'a', 1, NULL);
SELECT colfind_range(NULL, 'a'), colfind('', 'a');
SELECT count(*) FROM colfind_ranges(NULL, 'a');
SELECT count(*) FROM colfind_ranges('', 'a');
-- ranges count characters from 1, as substring does; the end is not part of them
SELECT colfind_range('😀😀 résumé', 'resume', 1), colfind_range('bá', 'a', 1), colfind_range('ba' || U&'\0301', 'a', 1);
SELECT colfind_range('none', 'a');
SELECT substring(title FROM lower(range) FOR upper(range) - lower(range))
FROM (VALUES ('my résumé')) AS books (title), colfind_range(title, 'resume', 1) AS range;
SELECT * FROM colfind_ranges('aaaa', 'aa');
SELECT * FROM colfind_ranges('aaaa', 'aa', selection => 'chain');
SELECT range, match FROM colfind_ranges('é, ' || U&'e\0301' || '😀e', 'e', 1);
SELECT count(*), sum(upper(range) - lower(range)), max(upper(range)) FROM colfind_ranges(repeat('aé', 1000), 'e', 1);
-- in a view, a join in which the pattern changes from row to row, and a check of a table
CREATE TABLE books (title text CHECK (colfind(title, 'a', 1) IN (true, false)));
CREATE VIEW with_resume AS SELECT title FROM books WHERE colfind(title, 'resume', 1);
INSERT INTO books VALUES ('my résumé'), ('aá'), (NULL), ('resume');
SELECT * FROM with_resume ORDER BY title COLLATE "C";
CREATE TABLE words (word text, strength integer);
INSERT INTO words VALUES ('resume', 1), ('resume', 3), ('aa', 1), ('á', 2), ('a', NULL);
SELECT word COLLATE "C", strength, count(*) FROM words, books WHERE colfind(title, word, strength) GROUP BY 1, 2 ORDER BY 1, 2;
SELECT title, match FROM books LEFT JOIN colfind_ranges(title, 'u', 1) ON true ORDER BY title COLLATE "C";
SELECT sum(colfind('x' || a || 'y', b || 'y')::integer), sum((position(b || 'y' IN 'x' || a || 'y') > 0)::integer)
FROM generate_series(0, 99) AS a, generate_series(0, 99) AS b;
-- in PL/pgSQL, where a fault is caught and the call goes on
CREATE FUNCTION found(title text, sought text) RETURNS text LANGUAGE plpgsql AS $$
BEGIN
    RETURN colfind(title, sought, 1);
EXCEPTION WHEN invalid_parameter_value THEN
    RETURN 'caught';
END $$;
SELECT found(title, sought) FROM (VALUES ('é', 'e'), ('é', ''), ('é', 'a'), ('é', 'e')) AS given (title, sought);
-- a prepared statement
PREPARE by_word (text) AS SELECT count(*) FROM books WHERE colfind(title, $1, 1);
EXECUTE by_word ('resume');
EXECUTE by_word ('aa');
-- what the functions are
SELECT proname, provolatile, proparallel, proisstrict FROM pg_proc WHERE proname LIKE 'colfind%' ORDER BY 1;
DROP EXTENSION colfind CASCADE;
