"""What tools/hunt is made of: schedules by seed, programs beside each other, what must hold of a report, and a plain model of the rules."""
