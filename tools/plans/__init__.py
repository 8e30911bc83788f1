"""Plans as text, as bytes, as tables and as pictures: what tools/plan is made of."""
