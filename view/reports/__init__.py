"""Messages and results of tests in formats that other programs read: JSON, SARIF 2.1.0 and JUnit XML."""
import common                                # noqa: F401, which finds the folder checks
