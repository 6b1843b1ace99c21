-- What is wrong is an error, and the backend goes on.
\pset tuples_only
\pset format unaligned
CREATE EXTENSION colfind;
SELECT pg_backend_pid() AS backend \gset
SELECT colfind('é', 'e', 1);
SELECT colfind('a', '');
SELECT colfind('a', repeat('a', 70000));
SELECT colfind('a', 'a' || repeat(U&'\0301', 31));
SELECT colfind('a' || repeat(U&'\0301', 31), 'e');
SELECT colfind_range('aé' || repeat(U&'\0301', 31), 'u');
SELECT * FROM colfind_ranges('a' || repeat(U&'\0301', 31), 'a');
SELECT colfind(repeat('a', 2000000) || repeat(U&'\0301', 31), 'e');
SELECT colfind('a', 'a', 0);
SELECT colfind('a', 'a', 257);
SELECT colfind('a', 'a', 1, 'blanked');
SELECT * FROM colfind_ranges('a', 'a', 1, 'shifted', 'some');
-- tables: none, none there, no file, no table, a tailor that is none; the one that is there
SET colfind."table" = '';
SELECT colfind('é', 'e', 1);
SET colfind."table" = '/nonexistent/table';
SELECT colfind('é', 'e', 1);
SET colfind."table" = '/';
SELECT colfind('é', 'e', 1);
SET colfind."table" = '/dev/zero';
SELECT colfind('é', 'e', 1);
SET colfind."table" = 'PG_VERSION';
SELECT colfind('é', 'e', 1);
RESET colfind."table";
SET colfind.tailor = 'PG_VERSION';
SELECT colfind('é', 'e', 1);
\getenv tailor TAILOR
SET colfind.tailor = :'tailor';
SELECT colfind('bär', 'baer', 1);
RESET colfind.tailor;
SELECT colfind('bär', 'baer', 1);
SET colfind.other = 'x';
-- a setting is for who may read files of the server
CREATE ROLE reader;
SET ROLE reader;
SET colfind."table" = '/etc/passwd';
SELECT colfind('é', 'e', 1);
RESET ROLE;
DROP ROLE reader;
SELECT pg_backend_pid() = :backend;
DROP EXTENSION colfind CASCADE;
