CREATE TABLE document (id TEXT PRIMARY KEY, owner TEXT, status TEXT);
INSERT INTO document VALUES
  ('plan', 'ann', 'published'),
  ('budget', 'ann', 'draft'),
  ('payroll', 'ann', 'sealed'),
  ('notes', 'ann', NULL),
  ('diary', 'bob', 'draft');
