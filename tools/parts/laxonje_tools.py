"""The package that all tools share, which lies beside this folder."""
import pathlib

__path__ = [str(pathlib.Path(__file__).resolve().parents[1] / "laxonje_tools")]
