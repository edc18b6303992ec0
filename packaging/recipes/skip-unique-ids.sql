-- After a restore: the next message of each class gets a unique-id that is 100 further on, in each
-- maildrop, so that none comes again that a mail program saw before. The deposits of the numbers that
-- are left out are noted as done.
BEGIN;
INSERT OR IGNORE INTO counts (maildrop, class, k)
SELECT name, class, 0 FROM maildrops, (SELECT DISTINCT class FROM counts);
WITH RECURSIVE n(i) AS (VALUES (1) UNION ALL SELECT i + 1 FROM n WHERE i < 100)
INSERT INTO deposits (maildrop, id, class, k, digest)
SELECT maildrop, 'skipped-' || class || '-' || (k + i), class, k + i, zeroblob(32) FROM counts, n;
UPDATE counts SET k = k + 100;
COMMIT;
