CREATE TABLE drinker (name TEXT PRIMARY KEY, city TEXT);
CREATE TABLE bar (name TEXT PRIMARY KEY, city TEXT);
CREATE TABLE beer (name TEXT PRIMARY KEY, brewer TEXT);
CREATE TABLE frequents (drinker TEXT REFERENCES drinker, bar TEXT REFERENCES bar, PRIMARY KEY (drinker, bar));
CREATE TABLE serves (bar TEXT REFERENCES bar, beer TEXT REFERENCES beer, price INTEGER CHECK (price > 0), PRIMARY KEY (bar, beer));
CREATE TABLE likes (drinker TEXT REFERENCES drinker, beer TEXT REFERENCES beer, PRIMARY KEY (drinker, beer));
