"""Where the program `rds_node` is: RDS_NODE names it, or it is the proved one of this checkout, if that was built."""
import os
from pathlib import Path

_BUILT = Path(__file__).parents[3] / "crates" / "rds_node" / "out" / "rds_node"
NODE = Path(os.environ.get("RDS_NODE") or _BUILT).absolute()
