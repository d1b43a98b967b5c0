"""What stands at a line: weighing devices, reject confirmation, filler, metrics, messages, alarms.

Nothing here is trusted by the book. Each part is a filter or a small service, started by
`hall-adapter`; docs/LINES.md says how a line is commissioned with them."""
