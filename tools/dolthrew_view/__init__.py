"""Pictures, sheets and conversions beside the proved program. Nothing here is proved: see docs/VIEW.md."""
