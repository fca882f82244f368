"""What the tools share: their words, listings, gradings and exact linear algebra."""
