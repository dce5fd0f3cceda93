"""The user's settings: from the environment, otherwise from the build's file `peep-cc.toml`, otherwise the defaults."""

from __future__ import annotations

import os
import sys

FILE_NAME = "peep-cc.toml"
LOG_NAME = "peep-cc.log"
TOP = os.path.dirname(os.path.dirname(os.path.dirname(os.path.realpath(__file__))))
OWN_NAME = "peep-cc"
COMPILER = "arm-none-eabi-gcc"

# the settings by their names in the file, each with the environment variable that overrides it
VARIABLES = {
    "compiler": "PEEP_CC",
    "program": "PEEP",
    "tables": "PEEP_TABLES",
    "learn": "PEEP_LEARN",
    "log": "PEEP_LOG",
    "keep": "PEEP_KEEP",
    "seconds": "PEEP_SECONDS",
}


class SettingsError(Exception):
    """A setting that can't be read: the build goes on without `peep`."""


class Settings:
    """The settings of a run."""

    def __init__(self, compiler: list[str], program: str | None, tables: list[str]) -> None:
        self.compiler = compiler
        self.program = program
        self.tables = tables
        self.learns = False
        self.log: str | None = None
        self.keeps_listings = False
        self.seconds = 300.0
        self.wrong: str | None = None
        """The message about a setting that can't be read, if any."""


def folder_of_settings(start: str) -> str | None:
    """The nearest folder, from `start` upwards, that has a settings file."""
    folder = os.path.abspath(start)
    while not os.path.isfile(os.path.join(folder, FILE_NAME)):
        above = os.path.dirname(folder)
        if above == folder:
            return None
        folder = above
    return folder


def read_file(path: str) -> dict[str, object]:
    """The settings in a settings file."""
    try:
        import tomllib
    except ImportError as error:
        raise SettingsError(f"{path}: Python {sys.version_info[0]}.{sys.version_info[1]} reads no TOML, 3.11 does") from error
    try:
        with open(path, "rb") as file:
            said = tomllib.load(file)
    except (OSError, ValueError) as error:
        raise SettingsError(f"{path}: {error}") from error
    unknown = sorted(set(said) - set(VARIABLES))
    if unknown:
        raise SettingsError(f"{path}: no setting is called {unknown[0]}")
    return said


def is_yes(value: object) -> bool:
    """Whether a setting, a word or a truth value, means yes."""
    return value not in (False, 0, "", "0", "no", "off", "false", None)


def next_compiler(name: str) -> str:
    """The first program of that name in the path that isn't a link to the driver; or the name, if there is none."""
    own = os.path.join(TOP, "driver", OWN_NAME)
    for folder in os.environ.get("PATH", os.defpath).split(os.pathsep):
        found = os.path.join(folder or ".", name)
        if os.path.isfile(found) and os.access(found, os.X_OK) and os.path.realpath(found) != own:
            return found
    return name


def compiler_called(name: str) -> str:
    """The compiler that the driver runs when it is called by a name: the one of that name, or for its own names gcc or g++ for Arm."""
    if name == OWN_NAME:
        return COMPILER
    if name == "peep-c++":
        return "arm-none-eabi-g++"
    return name


def built_program() -> str | None:
    """The proved program if it is built, otherwise the `peep` in the path, if any."""
    built = os.path.join(TOP, "crates", "peep", "out", "peep")
    if os.access(built, os.X_OK):
        return built
    import shutil

    return shutil.which("peep")


def shipped_tables() -> list[str]:
    """The tables that come with the program."""
    folder = os.path.join(TOP, "tables")
    return [os.path.join(folder, name) for name in sorted(os.listdir(folder)) if name.endswith(".peep")] if os.path.isdir(folder) else []


def words_of(value: object) -> list[str]:
    """The words of a setting that is a list or one text."""
    if isinstance(value, list):
        return [str(word) for word in value]
    words = str(value)
    if not set(words) & set("'\"\\#"):
        return words.split()
    import shlex

    return shlex.split(words)


def paths_of(value: object, folder: str) -> list[str]:
    """The paths of a setting that is a list or joined by colons, relative to a folder."""
    parts = [str(path) for path in value] if isinstance(value, list) else str(value).split(os.pathsep)
    return [os.path.join(folder, part) for part in parts if part]


def settings_for(name: str, start: str) -> Settings:
    """The settings for a run in the folder `start`, called by a name. `wrong` says what can't be read."""
    wrong = None
    folder = folder_of_settings(start)
    said: dict[str, object] = {}
    if folder:
        try:
            said = read_file(os.path.join(folder, FILE_NAME))
        except SettingsError as error:
            wrong = str(error)
    home = folder or start
    origins = {key: (os.environ[variable], start) for key, variable in VARIABLES.items() if variable in os.environ}
    for key, value in said.items():
        origins.setdefault(key, (value, home))
    values = {key: value for key, (value, _) in origins.items()}
    compiler = words_of(values.get("compiler") or compiler_called(name))
    compiler[:1] = [next_compiler(compiler[0])] if "/" not in compiler[0] else compiler[:1]
    settings = Settings(
        compiler,
        str(values["program"]) if values.get("program") else built_program(),
        paths_of(*origins["tables"]) if "tables" in origins else shipped_tables(),
    )
    log = values.get("log", LOG_NAME)
    try:
        settings.seconds = float(str(values.get("seconds", 300)))
    except ValueError:
        wrong = f"seconds: {values['seconds']} is no number"
    settings.learns = is_yes(values.get("learn"))
    settings.log = os.path.join(home, str(log)) if log else None
    settings.keeps_listings = is_yes(values.get("keep"))
    settings.wrong = wrong
    return settings
