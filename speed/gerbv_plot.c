/* Plots one file by gerbv's library, as speed/plots times it: cairo without antialiasing onto one byte a pixel, then a
   raw PBM file.

       gerbv_plot FILE X0 Y0 PITCH W H OUT.pbm      lengths in nm, sides in pixels, as in a script's window */
#include <cairo.h>
#include <gerbv.h>
#include <stdio.h>
#include <stdlib.h>
#include <string.h>

static const double NM_PER_INCH = 25400000.0;

static void say_nothing(const gchar *domain, GLogLevelFlags level, const gchar *text, gpointer data) {
  (void)domain, (void)level, (void)text, (void)data;
}

static int write_pbm(cairo_surface_t *surface, int width, int height, const char *path) {
  const unsigned char *pixels = cairo_image_surface_get_data(surface);
  int stride = cairo_image_surface_get_stride(surface), bytes = (width + 7) / 8;
  unsigned char *row = malloc(bytes);
  FILE *file = fopen(path, "wb");
  if (!row || !file) return 1;
  fprintf(file, "P4\n%d %d\n", width, height);
  for (int y = 0; y < height; y++, pixels += stride) {
    memset(row, 0, bytes);
    for (int x = 0; x < width; x++)
      if (pixels[x] >= 128) row[x / 8] |= 128 >> x % 8;
    fwrite(row, 1, bytes, file);
  }
  free(row);
  return fclose(file) != 0;
}

int main(int count, char **words) {
  if (count != 8) return 2;
  double pitch = atof(words[4]);
  int width = atoi(words[5]), height = atoi(words[6]);
  g_log_set_default_handler(say_nothing, NULL);
  gerbv_project_t *project = gerbv_create_project();
  gerbv_open_layer_from_filename(project, words[1]);
  if (project->last_loaded < 0) return 1;
  gerbv_fileinfo_t *layer = project->file[0];
  memset(&layer->color, 0, sizeof layer->color);
  layer->alpha = 65535;
  gerbv_render_info_t view = {
      .scaleFactorX = NM_PER_INCH / pitch,
      .scaleFactorY = NM_PER_INCH / pitch,
      .lowerLeftX = atof(words[2]) / NM_PER_INCH,
      .lowerLeftY = atof(words[3]) / NM_PER_INCH,
      .renderType = GERBV_RENDER_TYPE_CAIRO_NORMAL,
      .displayWidth = width,
      .displayHeight = height,
  };
  cairo_surface_t *surface = cairo_image_surface_create(CAIRO_FORMAT_A8, width, height);
  if (cairo_surface_status(surface)) return 1;
  gerbv_render_layer_to_cairo_target(cairo_create(surface), layer, &view);
  cairo_surface_flush(surface);
  return write_pbm(surface, width, height, words[7]);
}
