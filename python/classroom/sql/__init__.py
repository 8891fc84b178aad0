"""What is known of SQL's text without rows and without an engine.

From a handed-in file to its query (`clean`), tokens, trees and scopes of a query, the tables of a
schema (`schema`), and the same query in another engine's words (`dialect`). """
