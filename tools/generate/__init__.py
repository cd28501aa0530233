"""Makes files of the repository from tables: those of the library for C, and those of the messages."""
import pathlib

ROOT = pathlib.Path(__file__).resolve().parent.parent.parent
