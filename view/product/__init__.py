"""flownames and flowfmu: what stands beside the C of a chart in a product."""
