//! Stand-in for src/mono_font/generated: a sheet brings its fonts.
