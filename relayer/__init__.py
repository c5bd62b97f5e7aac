"""The relayer around the planner: it opens the connections and has the clock; every decision is the proved program's."""
