"""The lab: plays scripts on the built `replset`, and shows, expands, shrinks, varies and explains them."""
