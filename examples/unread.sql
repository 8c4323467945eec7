-- Lists the rows of a store that don't read, and those of a site or a page that isn't kept. A line has the table, the site,
-- the page, the user or the language, the `seq`, and what is wrong. While no program has the store, and with a copy of both its files:
--
--     sqlite3 desk.db < unread.sql
--
-- Of a snapshot it looks only whether that is JSON, and of a text not whether that is UTF-8. All that is wrong with a
-- snapshot this says:
--
--     sqlite3 desk.db "select writefile('home.json', snapshot) from pages where site = 'acme' and page = 'home'"
--     act_desk - audit < home.json
--
-- Each row is put right, or deleted. A good snapshot takes the place of another one by
--
--     sqlite3 desk.db "update pages set snapshot = readfile('good.json') where site = 'acme' and page = 'home'"
--
-- Where the judgement 2 of a page was deleted, those behind it are counted down by
--
--     sqlite3 desk.db "update judgements set seq = seq - 1 where site = 'acme' and page = 'home' and seq > 2"
--
-- At last the outcomes go of each page of which something was changed, and the edition. The desk audits all pages anew at its next
-- start:
--
--     sqlite3 desk.db "delete from outcomes where site = 'acme' and page = 'home'; delete from edition"
--
-- A store of an earlier desk has no table of languages yet; the desk makes it when it opens the store.
WITH
    misnamed (name) AS (
        SELECT name
        FROM (SELECT name FROM sites UNION SELECT user FROM members UNION SELECT page FROM pages)
        WHERE name GLOB '*[^a-z0-9._-]*' OR length(CAST(name AS BLOB)) NOT BETWEEN 1 AND 64
    ),
    reasons (word) AS (
        VALUES ('ok'), ('decorative'), ('merged'), ('no-title'), ('empty-title'), ('judge-title'), ('no-lang'),
            ('empty-lang'), ('unknown-lang'), ('three-letter'), ('no-zoom'), ('small-scale'), ('delay'), ('no-name'),
            ('judge-heading'), ('bad-tokens'), ('no-known-role'), ('outside-role'), ('unknown-attr'), ('later-attr'),
            ('bad-value'), ('dead-reference'), ('missing-state'), ('bad-owned'), ('nothing-owned'), ('focusable-inside'),
            ('headers-outside'), ('no-cells'), ('large-grid'), ('no-heading'), ('judge-heading-start'), ('no-landmark'),
            ('judge-landmark'), ('no-skip-link'), ('judge-skip-link'), ('no-collapse'), ('judge-collapse'),
            ('lang-mismatch'), ('judge-label'), ('judge-image'), ('not-permitted'), ('no-role'), ('no-context'),
            ('maybe-owned'), ('marked-exposed'), ('label-missing'), ('judge-label-in-name')
    ),
    placed_languages AS (
        SELECT *, row_number() OVER (PARTITION BY site ORDER BY seq) AS place,
            row_number() OVER (PARTITION BY site, tag ORDER BY seq) AS time
        FROM languages
    ),
    placed_judgements AS (SELECT *, row_number() OVER (PARTITION BY site, page ORDER BY seq) AS place FROM judgements),
    placed_outcomes AS (SELECT *, row_number() OVER (PARTITION BY site, page ORDER BY seq) AS place FROM outcomes)

SELECT 'sites', name, '', '', 'name' FROM sites WHERE name IN misnamed
UNION ALL SELECT 'sites', name, '', '', 'counter' FROM sites WHERE counter < 0

UNION ALL SELECT 'members', site, user, '', 'no such site' FROM members WHERE site NOT IN (SELECT name FROM sites)
UNION ALL SELECT 'members', site, user, '', 'user' FROM members WHERE user IN misnamed
UNION ALL SELECT 'members', site, user, '', 'role' FROM members WHERE role NOT BETWEEN 0 AND 3

UNION ALL SELECT 'languages', site, tag, seq, 'no such site' FROM languages WHERE site NOT IN (SELECT name FROM sites)
UNION ALL SELECT 'languages', site, tag, seq, 'seq' FROM placed_languages WHERE seq <> place OR place > 1000
UNION ALL SELECT 'languages', site, tag, seq, 'tag' FROM placed_languages WHERE tag NOT GLOB '[a-z][a-z][a-z]' OR time > 1

UNION ALL SELECT 'pages', site, page, '', 'no such site' FROM pages WHERE site NOT IN (SELECT name FROM sites)
UNION ALL SELECT 'pages', site, page, '', 'page' FROM pages WHERE page IN misnamed
UNION ALL SELECT 'pages', site, page, '', 'rev' FROM pages WHERE rev < 0
UNION ALL SELECT 'pages', site, page, '', 'snapshot' FROM pages WHERE NOT json_valid(CAST(snapshot AS TEXT))

UNION ALL SELECT 'judgements', site, page, seq, 'no such page' FROM judgements
    WHERE (site, page) NOT IN (SELECT site, page FROM pages)
UNION ALL SELECT 'judgements', site, page, seq, 'seq' FROM placed_judgements WHERE seq <> place
UNION ALL SELECT 'judgements', site, page, seq, 'rule' FROM judgements WHERE rule NOT BETWEEN 0 AND 65535
UNION ALL SELECT 'judgements', site, page, seq, 'node' FROM judgements WHERE node NOT BETWEEN 0 AND 4294967295
UNION ALL SELECT 'judgements', site, page, seq, 'verdict' FROM judgements WHERE verdict NOT BETWEEN 0 AND 2

UNION ALL SELECT 'outcomes', site, page, seq, 'no such page' FROM outcomes
    WHERE (site, page) NOT IN (SELECT site, page FROM pages)
UNION ALL SELECT 'outcomes', site, page, seq, 'seq' FROM placed_outcomes WHERE seq <> place
UNION ALL SELECT 'outcomes', site, page, seq, 'rule' FROM outcomes WHERE rule NOT BETWEEN 0 AND 65535
UNION ALL SELECT 'outcomes', site, page, seq, 'node' FROM outcomes WHERE node NOT BETWEEN 0 AND 4294967295
UNION ALL SELECT 'outcomes', site, page, seq, 'auto' FROM outcomes WHERE auto NOT BETWEEN 0 AND 2
UNION ALL SELECT 'outcomes', site, page, seq, 'last' FROM outcomes WHERE last NOT BETWEEN 0 AND 2
UNION ALL SELECT 'outcomes', site, page, seq, 'reason' FROM outcomes WHERE reason NOT IN reasons

ORDER BY 1, 2, 3, 4, 5;
