"""Charts as drawings and runs as pages. Charts are read, checked and run by the reference in checks/."""
import common                                # noqa: F401, which finds the folders of checks
