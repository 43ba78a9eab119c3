"""What the tools beside ptrun share: documents with places, reports, drawings, waves and pages."""
