"""The desk's screen: a control room's view of an outage book in a browser. docs/use/SCREEN.md says what it shows and does."""
