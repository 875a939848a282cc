/* Draws a scene of one client with Mesa's off-screen OpenGL, to measure against: mesa < scene.rcs > frames.ppm
 * GALLIUM_DRIVER picks the renderer (softpipe, llvmpipe). The processor seconds of drawing alone, of all threads together, are printed on standard error.
 * Barriers, semaphores and shared textures are passed over; a scene of version 2 is clipped as Mesa clips. Pictures differ from this project's at edges and in rounding. */
#include <GL/gl.h>
#include <GL/osmesa.h>
#include <stdint.h>
#include <stdio.h>
#include <stdlib.h>
#include <string.h>
#include <time.h>

enum { MOST = 1 << 25, HEADER = 12 };

static uint8_t scene[MOST];
static int width, height;
static uint8_t *pixels;

static uint16_t half(size_t at) { return (uint16_t)(scene[at] | scene[at + 1] << 8); }
static int32_t word(size_t at) { return (int32_t)(half(at) | (uint32_t)half(at + 2) << 16); }
static float fixed(size_t at) { return (float)(word(at) / 65536.0); }

static size_t payload(uint8_t opcode, size_t at)
{
    static const uint8_t sizes[0x25] = {
        0, 1, 0, 16, 4, 8, 1, 1, 1, 0, 64, 64, 0, 0, 16, 8, 16, 2, 1, 1, 2, 4, 4, 4, 1, 1, 1, 2, 1, 2, 0, 0, 0, 1, 1, 1, 0,
    };
    switch (opcode) {
    case 0x1e: return 5 + 4 * (size_t)half(at + 1) * half(at + 3);
    case 0x1f:
    case 0x20: return 9 + 4 * (size_t)half(at + 5) * half(at + 7);
    default: return opcode < 0x25 ? sizes[opcode] : 0;
    }
}

static const GLenum functions[] = { GL_NEVER, GL_LESS, GL_EQUAL, GL_LEQUAL, GL_GREATER, GL_NOTEQUAL, GL_GEQUAL, GL_ALWAYS };
static const GLenum factors[] = { GL_ZERO, GL_ONE, GL_SRC_COLOR, GL_ONE_MINUS_SRC_COLOR, GL_DST_COLOR, GL_ONE_MINUS_DST_COLOR,
                                  GL_SRC_ALPHA, GL_ONE_MINUS_SRC_ALPHA, GL_DST_ALPHA, GL_ONE_MINUS_DST_ALPHA };
static const GLenum capabilities[] = { GL_SCISSOR_TEST, GL_ALPHA_TEST, GL_DEPTH_TEST, GL_BLEND, GL_CULL_FACE, GL_TEXTURE_2D };
static const GLenum modes[] = { GL_TRIANGLES, GL_TRIANGLE_STRIP, GL_TRIANGLE_FAN };
static const GLenum faces[] = { GL_FRONT, GL_BACK, GL_FRONT_AND_BACK };

static GLuint textures[65];
static int bound = 1;
static GLint wrap_s = GL_REPEAT, wrap_t = GL_REPEAT;

static void bind(int name)
{
    if (!textures[name])
        glGenTextures(1, &textures[name]);
    glBindTexture(GL_TEXTURE_2D, textures[name]);
    glTexParameteri(GL_TEXTURE_2D, GL_TEXTURE_MIN_FILTER, GL_NEAREST);
    glTexParameteri(GL_TEXTURE_2D, GL_TEXTURE_MAG_FILTER, GL_NEAREST);
    glTexParameteri(GL_TEXTURE_2D, GL_TEXTURE_WRAP_S, wrap_s);
    glTexParameteri(GL_TEXTURE_2D, GL_TEXTURE_WRAP_T, wrap_t);
}

static void write_texels(uint8_t opcode, size_t p)
{
    bind(scene[p]);
    if (opcode == 0x1e)
        glTexImage2D(GL_TEXTURE_2D, 0, GL_RGBA8, half(p + 1), half(p + 3), 0, GL_RGBA, GL_UNSIGNED_BYTE, scene + p + 5);
    else
        glTexSubImage2D(GL_TEXTURE_2D, 0, half(p + 1), half(p + 3), half(p + 5), half(p + 7), GL_RGBA, GL_UNSIGNED_BYTE, scene + p + 9);
    bind(bound);
}

static void use_matrix(uint8_t opcode, size_t p)
{
    GLfloat m[16];
    for (int i = 0; i < 16; i++)
        m[i] = fixed(p + 4 * i);
    if (opcode == 0x0a)
        glLoadMatrixf(m);
    else
        glMultMatrixf(m);
}

static void write_frame(void)
{
    static uint8_t row[3 * 2048];
    glFinish();
    printf("P6\n%d %d\n255\n", width, height);
    for (int y = height - 1; y >= 0; y--) {
        for (int x = 0; x < width; x++)
            memcpy(row + 3 * x, pixels + 4 * ((size_t)y * width + x), 3);
        fwrite(row, 3, width, stdout);
    }
}

static void issue(uint8_t opcode, size_t p)
{
    const uint8_t *b = scene + p;
    switch (opcode) {
    case 0x01: glBegin(modes[b[0]]); break;
    case 0x02: glEnd(); break;
    case 0x03: glVertex4f(fixed(p), fixed(p + 4), fixed(p + 8), fixed(p + 12)); break;
    case 0x04: glColor4ub(b[0], b[1], b[2], b[3]); break;
    case 0x05: glTexCoord2f(fixed(p), fixed(p + 4)); break;
    case 0x06: glEnable(capabilities[b[0]]); break;
    case 0x07: glDisable(capabilities[b[0]]); break;
    case 0x08: glMatrixMode(b[0] ? GL_PROJECTION : GL_MODELVIEW); break;
    case 0x09: glLoadIdentity(); break;
    case 0x0a:
    case 0x0b: use_matrix(opcode, p); break;
    case 0x0c: glPushMatrix(); break;
    case 0x0d: glPopMatrix(); break;
    case 0x0e: glViewport(word(p), word(p + 4), word(p + 8), word(p + 12)); break;
    case 0x0f: glDepthRange(fixed(p), fixed(p + 4)); break;
    case 0x10: glScissor(word(p), word(p + 4), word(p + 8), word(p + 12)); break;
    case 0x11: glAlphaFunc(functions[b[0]], b[1] / 255.0f); break;
    case 0x12: glDepthFunc(functions[b[0]]); break;
    case 0x13: glDepthMask(b[0] != 0); break;
    case 0x14: glBlendFunc(factors[b[0]], factors[b[1]]); break;
    case 0x15: glColorMask(b[0] != 0, b[1] != 0, b[2] != 0, b[3] != 0); break;
    case 0x16: glClearColor(b[0] / 255.0f, b[1] / 255.0f, b[2] / 255.0f, b[3] / 255.0f); break;
    case 0x17: glClearDepth(fixed(p)); break;
    case 0x18: glClear((b[0] & 1 ? GL_COLOR_BUFFER_BIT : 0) | (b[0] & 2 ? GL_DEPTH_BUFFER_BIT : 0)); break;
    case 0x19: glCullFace(faces[b[0]]); break;
    case 0x1a: glFrontFace(b[0] ? GL_CW : GL_CCW); break;
    case 0x1b:
        if (b[0] == 0)
            bind(bound = b[1]);
        break;
    case 0x1c: glTexEnvi(GL_TEXTURE_ENV, GL_TEXTURE_ENV_MODE, b[0] ? GL_REPLACE : GL_MODULATE); break;
    case 0x1d:
        wrap_s = b[0] ? GL_CLAMP_TO_EDGE : GL_REPEAT;
        wrap_t = b[1] ? GL_CLAMP_TO_EDGE : GL_REPEAT;
        bind(bound);
        break;
    case 0x1e:
    case 0x1f: write_texels(opcode, p); break;
    case 0x24: write_frame(); break;
    default: break;
    }
}

static void draw(size_t at, size_t end)
{
    while (at < end) {
        size_t count = half(at), opcodes = at + 2, p = opcodes + count;
        for (size_t i = 0; i < count; i++) {
            issue(scene[opcodes + i], p);
            p += payload(scene[opcodes + i], p);
        }
        at = p;
    }
    glFinish();
}

int main(void)
{
    size_t size = fread(scene, 1, MOST, stdin);
    if (size < HEADER + 4 || (memcmp(scene, "RCS1", 4) != 0 && memcmp(scene, "RCS2", 4) != 0))
        return 3;
    width = half(4);
    height = half(6);
    size_t at = HEADER + 4 * (size_t)scene[9] + scene[10] + 2 * (size_t)scene[11];

    OSMesaContext context = OSMesaCreateContextExt(OSMESA_RGBA, 24, 0, 0, NULL);
    pixels = calloc((size_t)width * height, 4);
    if (!context || !pixels || !OSMesaMakeCurrent(context, pixels, GL_UNSIGNED_BYTE, width, height))
        return 7;
    glDisable(GL_DITHER);
    bind(1);
    glScissor(0, 0, width, height);
    glClearColor(0, 0, 0, 0);
    glClear(GL_COLOR_BUFFER_BIT | GL_DEPTH_BUFFER_BIT);
    glFinish();

    struct timespec from, to;
    clock_gettime(CLOCK_PROCESS_CPUTIME_ID, &from);
    draw(at + 4, at + 4 + (uint32_t)word(at));
    clock_gettime(CLOCK_PROCESS_CPUTIME_ID, &to);
    fprintf(stderr, "%s: seconds %.6f\n", glGetString(GL_RENDERER), (double)(to.tv_sec - from.tv_sec) + (to.tv_nsec - from.tv_nsec) / 1e9);
    return 0;
}
