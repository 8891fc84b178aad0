"""The subcommands by their names, each with its module."""

COMMANDS = {
    "import": "classroom.commands.import_",
    "collect": "classroom.commands.collect",
    "grade": "classroom.commands.grade",
    "mistakes": "classroom.commands.mistakes",
    "mark": "classroom.commands.mark",
    "page": "classroom.commands.page",
    "feedback": "classroom.commands.feedback",
    "serve": "classroom.commands.serve",
    "asked": "classroom.commands.asked",
    "forget": "classroom.commands.forget",
    "mutants": "classroom.commands.mutants",
    "pick": "classroom.commands.pick",
}
